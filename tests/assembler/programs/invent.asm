***********************************************************************
*  INVENT: counts articles. Its records and constants are members of  *
*  COPY, and a section of its own reads the file.                     *
*                                                                     *
*  OPTIONS --region 4M -I copy --path FOUND,LAST                      *
*  LEAK    ARTICLE                                                    *
*  OPEN    nothing.                                                   *
***********************************************************************
         COPY  INVCONS
INVENT   CSECT
INVENT   AMODE 31
INVENT   RMODE 24
         STM   14,12,12(13)
         LR    12,15
         USING INVENT,12
         ST    13,SAVEAREA+4
         LA    1,SAVEAREA
         ST    1,8(,13)
         LR    13,1
         GETMAIN RU,LV=INVMAX*INVLEN,SP=INVSP,BNDRY=PAGE
         ST    1,TABLE
         OPEN  (REPORT,OUTPUT)
         L     9,TABLE
         USING INVREC,9
         LHI   10,INVMAX
*
*  Each article is read by INVREAD. LEAK: the area of an article that
*  is in the table already is not released.
*
NEXT     STORAGE OBTAIN,LENGTH=INVLEN,ADDR=ARTICLE,SP=INVSP+1
         L     15,=V(INVREAD)
         BASR  14,15
         LTR   15,15
         BNZ   LAST
         L     2,ARTICLE
         CLC   INVKEY,0(2)
         BE    FOUND
         MVC   INVREC(INVLEN),0(2)
         LA    9,INVLEN(,9)
         L     2,ARTICLE
         STORAGE RELEASE,LENGTH=INVLEN,ADDR=(2),SP=INVSP+1
         BCT   10,NEXT
         ABEND 100
FOUND    L     3,INVCOUNT
         LA    3,1(,3)
         ST    3,INVCOUNT
         B     COUNTED
COUNTED  BAS   14,TOTALS
         LTR   15,15
         BZ    LAST
         WTO   'INVENT - TOTALS DO NOT AGREE'
LAST     BAS   14,HEADING
         CLOSE (REPORT)
         L     2,TABLE
         FREEMAIN RU,LV=INVMAX*INVLEN,A=(2),SP=INVSP
         L     13,SAVEAREA+4
         LM    14,12,12(13)
         SR    15,15
         BR    14
*
*  TOTALS: adds the counts in an area of its own.
*
TOTALS   ST    14,TOTRET
         STORAGE OBTAIN,LENGTH=L'TOTLINE,ADDR=(4)
         LR    5,4
         XC    0(L'TOTLINE,4),0(4)
         LR    2,5
         STORAGE RELEASE,LENGTH=L'TOTLINE,ADDR=(2)
         SR    15,15
         L     14,TOTRET
         BR    14
*
*  HEADING: prints a heading and the number of articles.
*
HEADING  L     3,INVCOUNT
         CVD   3,DOUBLE
         MVC   TOTLINE,BLANKS
         MVC   TOTLINE(20),=CL20'1ARTICLES COUNTED'
         UNPK  TOTLINE+21(8),DOUBLE
         OI    TOTLINE+28,C'0'
         ST    14,HEADRET
         PUT   REPORT,TOTLINE
         L     14,HEADRET
         BR    14
SAVEAREA DC    18F'0'
TABLE    DS    A
ARTICLE  DS    A
TOTRET   DS    A
TOTLINE  DC    CL133' '
BLANKS   DC    CL133' '
HEADRET  DS    A
DOUBLE   DS    D
REPORT   DCB   DDNAME=REPORT,DSORG=PS,MACRF=PM,RECFM=FBA,LRECL=133
         LTORG
         DROP
*
*  INVREAD reads an article with a buffer that it releases.
*
INVREAD  CSECT
         STM   14,12,12(13)
         LR    11,15
         USING INVREAD,11
         GETMAIN R,LV=4096
         LR    6,1
         GET   INVFILE,(6)
         FREEMAIN R,LV=4096,A=(6)
         LM    14,12,12(13)
         SR    15,15
         BR    14
INVFILE  DCB   DDNAME=INVFILE,DSORG=PS,MACRF=GM
         END   INVENT
