*        A server: two subtasks, subpools given and shared, parameter
*        lists that are executed elsewhere.
SERVER   CSECT
         STM   14,12,12(13)
         BASR  12,0
         USING *,12
         STORAGE OBTAIN,LENGTH=SAVELEN
         ST    1,SAVEPTR
         ATTACH EP=READER,ECB=RECB,GSPV=7,SHSPL=BOTH,SF=(E,ATTLIST)
         ST    1,RTCB
         ATTACHX EPLOC=WNAME,ECB=WECB,SHSPL=BOTH,SZERO=NO,             X
               GSPL=MINE
         ST    1,WTCB
         LA    3,RQLIST
         GETMAIN MF=(E,(3))
         LTR   15,15
         JNZ   SHORT
         GETMAIN LU,LA=SIZES,A=MORE,SP=9
         WAIT  2,ECBLIST=ECBS
         DETACH RTCB
         DETACH WTCB
         FREEMAIN LC,LA=SIZES,A=MORE,SP=9
         FREEMAIN EU,LV=1024,A=RQAREA,SP=9
SHORT    L     1,SAVEPTR
         STORAGE RELEASE,LENGTH=SAVELEN,ADDR=(1)
         BR    14
SAVELEN  EQU   18*4
ATTLIST  ATTACH DPMOD=-1,SF=L
RQLIST   GETMAIN EC,LV=1024,A=RQAREA,SP=9,MF=L
RQAREA   DS    A
MORE     DS    3A
SIZES    DC    A(100),A(200),A(X'80000000'+300)
BOTH     DC    AL1(2,8,9)
MINE     DC    AL1(L'MINE,5)
WNAME    DC    CL8'WRITER'
RECB     DC    F'0'
WECB     DC    F'0'
ECBS     DC    A(RECB),A(WECB+X'80000000')
RTCB     DS    A
WTCB     DS    A
SAVEPTR  DS    A
*
READER   CSECT
         GETMAIN RC,LV=256,SP=8
         LTR   15,15
         BNZR  14
         LR    4,1
         FREEMAIN RC,LV=256,A=(4),SP=8
         GETMAIN R,LV=64
         GETMAIN RU,LV=64,SP=7
         BR    14
WRITER   CSECT
         STORAGE OBTAIN,LENGTH=(4096,64),ADDR=(5),SP=9,COND=YES
         CPOOL BUILD,PCELLCT=10,CSIZE=40,CPID=CPIDW,SP=5
         CPOOL GET,C,CPID=CPIDW,CELL=ACELL
         CPOOL FREE,CPID=CPIDW,CELL=ACELL
         CPOOL DELETE,CPID=CPIDW
         STORAGE RELEASE,SP=5
         BR    14
CPIDW    DS    F
ACELL    DS    A
         END   SERVER
