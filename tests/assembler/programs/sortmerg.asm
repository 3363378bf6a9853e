***********************************************************************
*  SORTMERG: sorts the records of a file in storage, in a loop that   *
*  obtains an area for each record.                                   *
*                                                                     *
*  OPTIONS --region 1M --path EOF,PRINTALL --repeat READ=3            *
*  LEAK    RECADDR RECADDR2                                           *
*  OPEN    nothing: the loop is written three times, and the path goes*
*          on at EOF, where the exit of GET goes.                     *
***********************************************************************
SORTMERG CSECT
SORTMERG AMODE 31
SORTMERG RMODE 24
         STM   14,12,12(13)
         LR    12,15
         USING SORTMERG,12
         GETMAIN RU,LV=WORKLEN,LOC=BELOW
         ST    1,WORKADDR
         LR    11,1
         USING WORK,11
         ST    13,WSAVE+4
         ST    11,8(,13)
         LA    13,WSAVE
         XC    COUNT,COUNT
         OPEN  (INPUT,INPUT,OUTPUT,OUTPUT)
         LTR   15,15
         BNZ   NOOPEN
*
*  The table has a pointer for each record.
*
         GETMAIN EC,LV=TABLEN,A=TABADDR,SP=5
         LTR   15,15
         BNZ   NOTABLE
         L     9,TABADDR
         LA    10,TABMAX
*
*  LEAK: the area of each record is kept in RECADDR, and the pointer to
*  the one before is lost: only the last one is released at the end.
*
READ     GETMAIN RU,LV=RECLEN,SP=6
         ST    1,RECADDR
         LR    7,1
         GET   INPUT,(7)
         L     2,COUNT
         LA    2,1(,2)
         ST    2,COUNT
         ST    7,0(,9)
         LA    9,4(,9)
         BCTR  10,0
         B     READ
*
*  No more records. The table is sorted in place.
*
EOF      L     2,COUNT
         LTR   2,2
         BZ    NORECS
         BCT   2,SORT
         B     PRINTALL
SORT     L     9,TABADDR
         LR    8,2
SORT1    L     3,0(,9)
         L     4,4(,9)
         CLC   0(KEYLEN,3),0(4)
         BNH   SORT2
         ST    4,0(,9)
         ST    3,4(,9)
SORT2    LA    9,4(,9)
         BCT   8,SORT1
         BCT   2,SORT
*
PRINTALL L     9,TABADDR
         L     8,COUNT
PRINT    L     3,0(,9)
         PUT   OUTPUT,(3)
         LA    9,4(,9)
         BCT   8,PRINT
         L     2,RECADDR
         FREEMAIN RU,LV=RECLEN,A=(2),SP=6
NORECS   FREEMAIN EC,LV=TABLEN,A=TABADDR,SP=5
NOTABLE  CLOSE (INPUT,,OUTPUT)
NOOPEN   L     13,WSAVE+4
         L     2,WORKADDR
         FREEMAIN RU,LV=WORKLEN,A=(2)
         LM    14,12,12(13)
         SR    15,15
         BR    14
*
KEYLEN   EQU   12
RECLEN   EQU   80
TABMAX   EQU   1000
TABLEN   EQU   TABMAX*4
WORKADDR DS    A
TABADDR  DS    A
RECADDR  DS    A
INPUT    DCB   DDNAME=INPUT,DSORG=PS,MACRF=GM,EODAD=EOF
OUTPUT   DCB   DDNAME=OUTPUT,DSORG=PS,MACRF=PM
WORK     DSECT
WSAVE    DS    18F
COUNT    DS    F
WLINE    DS    CL133
WORKLEN  EQU   *-WORK
         END   SORTMERG
