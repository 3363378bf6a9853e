PAY      CSECT
         STORAGE OBTAIN,LENGTH=200,ADDR=(1),LOC=(31,64)      save area
         LR    13,1
         GETMAIN RU,LV=5000,BNDRY=PAGE,LOC=24                records
         ST    1,INADDR
         L     2,=F'8192'
         L     3,=F'1024'
         GETMAIN VRC,LV=((2),(3)),SP=10,LOC=24               table
         LTR   15,15
         BNZ   NOTAB
         ST    1,TABADDR
         ST    0,TABLEN
         GETMAIN EC,LV=100,A=LINEADDR,SP=20                  print line
         LTR   15,15
         BNZ   NOLINE
         ATTACH EP=RPT,GSPL=GIVEN,SHSPL=SHARED,SZERO=NO,               X
               ECB=RPTECB,SF=(E,ATTL)
         ST    1,RPTTCB
         WAIT  ECB=RPTECB
         DETACH RPTTCB
         L     2,TABADDR
         L     3,TABLEN
         STORAGE RELEASE,LENGTH=(3),ADDR=(2),SP=10,COND=YES  given away
         FREEMAIN EC,LV=100,A=LINEADDR,SP=20
         L     2,INADDR
         FREEMAIN RU,LV=5000,A=(2)
         LR    2,13
         STORAGE RELEASE,LENGTH=200,ADDR=(2)
         FREEMAIN RU,SP=20                                   the rest
         BR    14
GIVEN    DC    AL1(1),AL1(10)
SHARED   DC    AL1(1),AL1(20)
*
RPT      CSECT
         GETMAIN RU,LV=4000,SP=20                            buffer
         ST    1,BUFADDR
         GETMAIN R,LV=80                                     headings
         ST    1,HEADADDR
         BR    14
