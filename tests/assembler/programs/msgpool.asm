***********************************************************************
*  MSGPOOL: a server of messages. Each message has a cell of a pool;  *
*  long ones have an area of their own, which the cell points to.     *
*                                                                     *
*  OPTIONS --region 640K,4M --repeat NEXTMSG=2                        *
*  LEAK    TEXTPTR TEXTPTR2                                           *
*  OPEN    the branches of NEXTMSG; the area of a long text.          *
***********************************************************************
         PRINT NOGEN
R0       EQU   0
R1       EQU   1
R2       EQU   2
R3       EQU   3
R4       EQU   4
R9       EQU   9
R12      EQU   12
R13      EQU   13
R14      EQU   14
R15      EQU   15
MSGPOOL  CSECT
MSGPOOL  AMODE 31
MSGPOOL  RMODE ANY
         BAKR  R14,0
         LARL  R12,CONSTS
         USING CONSTS,R12
         STORAGE OBTAIN,LENGTH=DYNLEN,ADDR=(R9),LOC=31
         ST    R9,DYNPTR
         USING DYN,R9
         MVC   DYNEYE,=CL8'DYNAREA '
         CPOOL BUILD,PCELLCT=CELLS,SCELLCT=CELLS/2,CSIZE=MSGLEN,       X
               SP=3,CPID=MSGCPID,LOC=31,HDR='MESSAGES'
         JAS   R14,INIT
         LTR   R15,R15
         JNZ   NOINIT
NEXTMSG  DS    0H
         CPOOL GET,UNCOND,CPID=MSGCPID,CELL=MSGCELL
         L     R4,MSGCELL
         USING MSG,R4
         JAS   R14,RECEIVE
         CHI   R15,4
         JE    STOP
         CLC   MSGSIZE,=H'64'
         JNH   SHORT
*
*  LEAK: SEND gives the cell back, but nobody releases the text.
*
         STORAGE OBTAIN,LENGTH=TEXTLEN,ADDR=(R1),SP=4,LOC=31
         ST    R1,TEXTPTR
         ST    R1,MSGTEXT
SHORT    JAS   R14,SEND
         J     NEXTMSG
STOP     CPOOL DELETE,CPID=MSGCPID
NOINIT   L     R2,TABPTR
         STORAGE RELEASE,LENGTH=TABSIZE,ADDR=(R2),SP=3
         L     R2,DYNPTR
         STORAGE RELEASE,LENGTH=DYNLEN,ADDR=(R2)
         SR    R15,R15
         PR
*
*  INIT: obtains the table of receivers.
*
INIT     DS    0H
         ST    R14,SAVEINIT
         STORAGE OBTAIN,LENGTH=TABSIZE,ADDR=TABPTR,SP=3,COND=YES
         LTR   R15,R15
         JNZ   INITBAD
         L     R2,TABPTR
         XC    0(256,R2),0(R2)
         SR    R15,R15
INITBAD  L     R14,SAVEINIT
         BR    R14
*
*  RECEIVE: reads a message into the cell; 4 in register 15 is the end.
*
RECEIVE  DS    0H
         ST    R14,SAVERECV
         LA    R3,MSGDATA
         LA    R2,MSGECB
         WAIT  1,ECB=(R2)
         XC    MSGECB,MSGECB
         MVC   MSGSIZE,INSIZE
         MVC   MSGDATA(60),INDATA
         SR    R15,R15
         CLI   INKIND,C'E'
         JNE   RECV1
         LHI   R15,4
RECV1    L     R14,SAVERECV
         BR    R14
*
*  SEND: gives the message to its receiver, and its cell back.
*
SEND     DS    0H
         LR    R3,R14
         WTO   TEXT=(R4),MF=(E,WTOLIST)
         L     R2,MSGCELL
         CPOOL FREE,CPID=MSGCPID,CELL=(R2)
         BR    R3
         DROP  R4
*
CELLS    EQU   8
TABSIZE  EQU   512
TEXTLEN  EQU   4096
CONSTS   DS    0D
WTOLIST  WTO   TEXT=,MF=L
MSGCPID  DS    F
MSGCELL  DS    A
TABPTR   DS    A
DYNPTR   DS    A
TEXTPTR  DS    A
SAVEINIT DS    A
SAVERECV DS    A
MSGECB   DC    F'0'
INSIZE   DS    H
INKIND   DS    C
INDATA   DS    CL60
         LTORG
DYN      DSECT
DYNEYE   DS    CL8
DYNSAVE  DS    18F
DYNLEN   EQU   *-DYN
MSG      DSECT
MSGTEXT  DS    A
MSGSIZE  DS    H
         DS    H
MSGDATA  DS    CL64
MSGLEN   EQU   *-MSG
         END   MSGPOOL
