ORDERS   CSECT
         STM   14,12,12(13)
         LR    12,15
         USING ORDERS,12
         GETMAIN EC,LV=8000,A=TABLE,SP=5               pointers
         LTR   15,15
         BNZ   NOTABLE
NEXT     GETMAIN RU,LV=80,SP=6                         an order
         ST    1,ORDER
         GET   INPUT,(1)
         BAL   10,STORE
         B     NEXT
SORT     ATTACH EP=SORTER,SHSPV=5,SZERO=NO,ECB=DONE
         ST    1,TCB
         WAIT  ECB=DONE
         DETACH TCB
         L     2,ORDER
         FREEMAIN RU,LV=80,A=(2),SP=6
         FREEMAIN EC,LV=8000,A=TABLE,SP=5
NOTABLE  LM    14,12,12(13)
         SR    15,15
         BR    14
STORE    L     3,TABLE
         ST    1,0(,3)
         BR    10
TABLE    DS    A
ORDER    DS    A
TCB      DS    A
DONE     DC    F'0'
INPUT    DCB   DDNAME=INPUT,DSORG=PS,MACRF=GM,EODAD=SORT
SORTER   CSECT
         L     4,WORKLEN
         GETMAIN R,LV=(4)
         LR    5,1
         FREEMAIN R,LV=(4),A=(5)
         BR    14
WORKLEN  DS    F
         END   ORDERS
