***********************************************************************
*  PAYROLL: the records of a month. A subtask prints the report; it   *
*  gets the table by GSPV and shares the subpool of its buffers, and  *
*  subpool 0, as it does unless SZERO=NO is written.                  *
*                                                                     *
*  OPTIONS --region 2M --schedule attach --path NEXTREC,ENDREC        *
*  LEAK    HEADADDR                                                   *
*  OPEN    nothing: the path is chosen, and the subtask runs at its   *
*          ATTACH.                                                    *
***********************************************************************
PAYROLL  CSECT
PAYROLL  AMODE 31
PAYROLL  RMODE 24
         SAVE  (14,12),,*
         BASR  12,0
         USING *,12
         STORAGE OBTAIN,LENGTH=72,ADDR=(1)
         ST    1,SAVEADDR
         ST    13,4(,1)
         ST    1,8(,13)
         LR    13,1
         GETMAIN RU,LV=INLEN,BNDRY=PAGE,LOC=24
         ST    1,INADDR
         GETMAIN VRC,LV=(TABMAX,TABMIN),SP=10
         LTR   15,15
         BNZ   NOTAB
         ST    1,TABADDR
         ST    0,TABLEN
         OPEN  (PAYFILE,INPUT)
NEXTREC  GET   PAYFILE
         CLI   0(1),C'E'
         BE    ENDREC
         LR    2,1
         L     3,TABADDR
         MVC   0(80,3),0(2)
         PACK  DOUBLE,GROSS-RECORD(7,2)
         AP    TOTAL,DOUBLE+3(5)
         AP    RECORDS,=P'1'
         B     NEXTREC
ENDREC   GETMAIN EC,LV=132,A=LINEADDR,SP=20
         LTR   15,15
         BNZ   NOLINE
         ATTACH EP=REPORT,GSPV=10,SHSPV=20,ECB=REPECB
         ST    1,REPTCB
         LTR   15,15
         BNZ   NOATT
         WAIT  ECB=REPECB
         DETACH REPTCB
NOATT    FREEMAIN EC,LV=132,A=LINEADDR,SP=20
NOLINE   CLOSE (PAYFILE)
         L     2,INADDR
         FREEMAIN RU,LV=INLEN,A=(2)
NOTAB    L     2,SAVEADDR
         L     13,4(,2)
         STORAGE RELEASE,LENGTH=72,ADDR=(2)
         RETURN (14,12),RC=0
INLEN    EQU   8192
TABMAX   EQU   16384
TABMIN   EQU   4096
SAVEADDR DS    A
INADDR   DS    A
TABADDR  DS    A
TABLEN   DS    F
LINEADDR DS    A
REPECB   DC    F'0'
REPTCB   DS    A
DOUBLE   DS    D
TOTAL    DC    PL6'0'
RECORDS  DC    PL4'0'
PAYFILE  DCB   DDNAME=PAYFILE,DSORG=PS,MACRF=GL,EODAD=ENDREC
*
*  The subtask. Its program is a section of the same source.
*
REPORT   CSECT
         SAVE  (14,12)
         BASR  11,0
         USING *,11
         GETMAIN RU,LV=4000,SP=20
         ST    1,BUFADDR
         LTR   1,1
         BZ    REPEND
*
*  LEAK: the headings are in subpool 0, which the subtask shares by
*  SZERO=YES, and nobody releases them: its end does not free them.
*
         GETMAIN R,LV=80
         ST    1,HEADADDR
         L     4,BUFADDR
         L     5,HEADADDR
         MVC   0(80,4),0(5)
         PUT   PRINTER,(4)
         L     2,BUFADDR
         FREEMAIN RU,LV=4000,A=(2),SP=20
         FREEMAIN RU,SP=10
REPEND   RETURN (14,12),RC=0
BUFADDR  DS    A
HEADADDR DS    A
PRINTER  DCB   DDNAME=PRINTER,DSORG=PS,MACRF=PM
*
*  A record of the file.
*
RECORD   DSECT
NUMBER   DS    CL6
NAME     DS    CL30
GROSS    DS    CL7
         END   PAYROLL
