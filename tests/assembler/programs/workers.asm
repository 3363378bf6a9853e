***********************************************************************
*  WORKERS: a dispatcher with two subtasks of one program, and a third*
*  that logs. All share subpool 7 with the dispatcher.                *
*                                                                     *
*  OPTIONS --region 8M,32M --schedule end --path DONE                 *
*  LEAK    REQPTR REQPTR2                                             *
*  OPEN    nothing. Each of the two workers runs the same statements, *
*          with names of its own.                                     *
***********************************************************************
WORKERS  CSECT
WORKERS  AMODE 31
WORKERS  RMODE 24
         STM   14,12,12(13)
         BASR  12,0
         USING *,12
         LA    2,SAVEAREA
         ST    13,4(,2)
         ST    2,8(,13)
         LR    13,2
         STORAGE OBTAIN,LENGTH=QUEUELEN,ADDR=QUEUEPTR,SP=7
         ATTACHX EP=WORKER,SHSPL=SHARED,ECB=ECB1,SZERO=NO
         ST    1,TCB1
         ATTACHX EP=WORKER,SHSPL=SHARED,ECB=ECB2,SZERO=NO
         ST    1,TCB2
         ATTACHX EPLOC=LOGNAME,SHSPV=7,ECB=ECB3,SZERO=NO
         ST    1,TCB3
         CLC   TCB1,TCB2
         BE    BADATT
         WAIT  1,ECBLIST=ECBS
         LTR   15,15
         BZ    DONE
BADATT   ABEND 200,DUMP
DONE     WAIT  ECB=ECB2
         WAIT  ECB=ECB3
         DETACH TCB1
         DETACH TCB2
         DETACH TCB3
         L     2,QUEUEPTR
         STORAGE RELEASE,LENGTH=QUEUELEN,ADDR=(2),SP=7
         L     13,4(,13)
         LM    14,12,12(13)
         SR    15,15
         BR    14
SAVEAREA DC    18F'0'
QUEUELEN EQU   4096
QUEUEPTR DS    A
SHARED   DC    AL1(L'SHARED+1,7,8)
TCB1     DS    A
TCB2     DS    A
TCB3     DS    A
ECBS     DC    A(ECB1),A(ECB2),A(X'80000000'+ECB3)
ECB1     DC    F'0'
ECB2     DC    F'0'
ECB3     DC    F'0'
LOGNAME  DC    CL8'LOGGER'
*
*  The program of the two workers. LEAK: a request stays in the shared
*  subpool when its worker ends.
*
WORKER   CSECT
         STM   14,12,12(13)
         BASR  11,0
         USING *,11
         STORAGE OBTAIN,LENGTH=256,ADDR=(3)
         ST    3,STACKPTR
         GETMAIN RU,LV=1024,SP=8
         ST    1,REQPTR
         BAS   14,SERVE
         L     3,STACKPTR
         STORAGE RELEASE,LENGTH=256,ADDR=(3)
         LM    14,12,12(13)
         BR    14
SERVE    ST    14,SERVRET
         STORAGE OBTAIN,LENGTH=2048,ADDR=SERVBUF
         L     2,SERVBUF
         XC    0(256,2),0(2)
         MVC   0(16,2),=CL16'REQUEST SERVED'
         L     4,SERVED
         LA    4,1(,4)
         ST    4,SERVED
         STORAGE RELEASE,LENGTH=2048,ADDR=(2)
         L     14,SERVRET
         BR    14
STACKPTR DS    A
REQPTR   DS    A
SERVBUF  DS    A
SERVRET  DS    A
SERVED   DC    F'0'                           by this copy
         LTORG
*
LOGGER   CSECT
         STM   14,12,12(13)
         BASR  11,0
         USING *,11
         GETMAIN RC,LV=4096,SP=9
         LTR   15,15
         BNZ   LOGEND
         LR    5,1
         FREEMAIN RC,LV=4096,A=(5),SP=9
LOGEND   LM    14,12,12(13)
         BR    14
         END   WORKERS
