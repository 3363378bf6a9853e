* Lists of lengths, variable lengths, and what a word has held before.
LISTS    START 0
         BALR  12,0
         USING *,12
         GETMAIN LU,LA=THREE,A=AREAS,SP=40,BNDRY=PAGE
         GETMAIN LC,LA=ONE,A=SINGLE
         LTR   15,15
         BNZ   OVER
         LA    4,THREE
         LA    5,OTHERS
         GETMAIN LC,LA=(4),A=(5),SP=41
         LTR   15,15
         BM    OVER
         GETMAIN VU,LA=PAIR,A=SPAN,SP=42
         GETMAIN VRU,LV=(MOST,LEAST),SP=42,STARTBDY=8,CONTBDY=16
         STM   0,1,GOT
         LR    6,1
         L     7,PAIR
         GETMAIN RC,LV=(7),SP=43
         LR    8,1
         FREEMAIN RC,LV=(7),A=(8),SP=43
         L     7,PAIR+4
         GETMAIN RC,LV=(7),SP=43
         FREEMAIN LU,LA=THREE,A=AREAS,SP=40
         FREEMAIN L,LA=ONE,A=SINGLE
         FREEMAIN LC,LA=(4),A=(5),SP=41
         FREEMAIN VU,A=SPAN,SP=42
         FREEMAIN V,A=GOT,SP=42
         FREEMAIN RU,LV=LEAST,A=(6),SP=42
         FREEMAIN LC,LA=THREE,A=SPAN
         FREEMAIN RC,SP=42
         FREEMAIN R,LV=8,A=SINGLE
OVER     DS    0H
         SR    1,1
         FREEMAIN R,LV=8,A=(1)
         BR    14
MOST     EQU   LEAST*8
LEAST    EQU   X'200'
THREE    DC    F'4096',F'8192',X'80',AL3(16)
ONE      DC    XL4'80000100'
PAIR     DC    A(LEAST,MOST)
AREAS    DS    3A
OTHERS   DS    3A
SINGLE   DS    A
SPAN     DS    2F
GOT      DS    2F
         END
