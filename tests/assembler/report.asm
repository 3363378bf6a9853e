*        A report with work areas: lengths by EQU and DSECT.
REPORT   CSECT
REPORT   AMODE 31
REPORT   RMODE ANY
R1       EQU   1
R2       EQU   2
R9       EQU   9
R15      EQU   15
KILO     EQU   1024
PAGES    EQU   3
TABLEN   EQU   4*KILO+L'HEADER
SUBPOOL  EQU   X'14'
         USING REPORT,12
         STM   14,12,12(13)
         LR    12,15
         GETMAIN RU,LV=WORKLEN,SP=SUBPOOL,LOC=ANY         work area
         ST    R1,WORKPTR
         LR    R9,R1
         USING WORK,R9
         GETMAIN EC,LV=TABLEN,A=TABPTR,SP=SUBPOOL,                     X
               BNDRY=PAGE
         LTR   R15,R15
         BNZ   NOTABLE
         GETMAIN VC,LA=BOUNDS,A=BUFFER,SP=21
         LTR   R15,R15
         BZ    GOTBUF
         GETMAIN EU,LV=PAGES*KILO*2,A=SPARE,SP=21
GOTBUF   DS    0H
         LA    R2,PAGES*KILO
         STORAGE OBTAIN,LENGTH=(R2),ADDR=LISTPTR,                      X
               CONTBDY=12,COND=YES
         L     R2,TABPTR
         FREEMAIN EC,LV=TABLEN,A=TABPTR,SP=SUBPOOL
         FREEMAIN VC,A=BUFFER,SP=21
         L     R2,LISTPTR
         STORAGE RELEASE,LENGTH=3072,ADDR=(R2)
NOTABLE  LR    R1,R9
         FREEMAIN R,LV=WORKLEN,A=(1),SP=SUBPOOL
         LM    14,12,12(13)
         BR    14
WORKPTR  DS    A
TABPTR   DS    A
BUFFER   DS    2F
SPARE    DS    A
LISTPTR  DS    A
BOUNDS   DC    F'2048'                minimum
         DC    F'8192'                maximum
HEADER   DC    CL80'HEADER OF THE REPORT'
WORK     DSECT
SAVE     DS    18F
LINE     DS    CL133
COUNT    DS    F
NAMES    DS    10CL8
WORKLEN  EQU   *-WORK
         END   REPORT
