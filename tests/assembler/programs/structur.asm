***********************************************************************
*  STRUCTUR: written with the structured macros IF, ELSE and DO. It   *
*  makes an index of names.                                           *
*                                                                     *
*  OPTIONS --region 4M --repeat NAMELOOP=2                            *
*  LEAK    SPARE                                                      *
*  OPEN    each IF and DOEXIT: its two ways; the member ASMMSP.       *
***********************************************************************
         COPY  ASMMSP
STRUCTUR CSECT
STRUCTUR AMODE 31
STRUCTUR RMODE ANY
         BAKR  14,0
         LARL  12,DATA
         USING DATA,12
         STORAGE OBTAIN,LENGTH=WORKLEN,ADDR=(11),LOC=31
         ST    11,WORKPTR
         USING WORK,11
         MVC   WEYE,=C'WORK'
         IF    (CLI,PARMKIND,EQ,C'L')
         STORAGE OBTAIN,LENGTH=32768,ADDR=INDEX,SP=10,LOC=31
         ELSE
         STORAGE OBTAIN,LENGTH=4096,ADDR=INDEX,SP=10,LOC=31
         ENDIF
         LA    5,0
         OPEN  (LISTING,(OUTPUT))
         BAS   9,HEADING
NAMELOOP DO    FROM=(6,=F'20')
         STORAGE OBTAIN,LENGTH=NAMELEN,ADDR=(4),SP=11,LOC=31
         ST    4,NAMEPTR
         MVC   0(8,4),NAME
         DOEXIT (CLI,NAME,EQ,C' ')
         LA    5,1(,5)
         BAS   9,DETAIL
         LR    2,4
         STORAGE RELEASE,LENGTH=NAMELEN,ADDR=(2),SP=11
         ENDDO
*
*  LEAK: the spare area is obtained on both ways, and released on none.
*
         IF    (CHI,5,GT,10)
         STORAGE OBTAIN,LENGTH=8192,ADDR=SPARE,SP=12,LOC=31
         ENDIF
         BAS   9,FOOTING
         CLOSE (LISTING)
         STORAGE RELEASE,SP=10
         STORAGE RELEASE,SP=11
         LR    2,11
         STORAGE RELEASE,LENGTH=WORKLEN,ADDR=(2)
         SR    15,15
         PR
*
*  HEADING: begins a page.
*
HEADING  MVC   PRTLINE,BLANKS
         MVC   PRTLINE(18),=CL18'1INDEX OF NAMES'
         TIME  DEC,STAMP,DATETYPE=YYYYMMDD,LINKAGE=SYSTEM
         UNPK  PRTLINE+60(9),STAMP+8(5)
         MVI   PRTLINE+68,C' '
         PUT   LISTING,PRTLINE
         BR    9
*
*  DETAIL: prints a name with its number, and turns its letters round.
*
DETAIL   MVC   PRTLINE,BLANKS
         CVD   5,DOUBLE
         UNPK  PRTLINE+1(5),DOUBLE
         OI    PRTLINE+5,C'0'
         MVC   PRTLINE+8(8),NAME
         LA    3,8
         LA    1,NAME+7
         LA    2,PRTLINE+20
LETTER   MVC   0(1,2),0(1)
         LA    2,1(,2)
         BCTR  1,0
         BCT   3,LETTER
         PUT   LISTING,PRTLINE
         BR    9
*
*  FOOTING: prints how many names there are.
*
FOOTING  MVC   PRTLINE,BLANKS
         CVD   5,DOUBLE
         UNPK  PRTLINE+1(5),DOUBLE
         OI    PRTLINE+5,C'0'
         MVC   PRTLINE+8(5),=C'NAMES'
         PUT   LISTING,PRTLINE
         BR    9
DATA     DS    0D
DOUBLE   DS    D
STAMP    DS    2D
PRTLINE  DS    CL133
BLANKS   DC    CL133' '
PARMKIND DC    C'S'
NAME     DC    CL8' '
NAMELEN  EQU   64
WORKPTR  DS    A
INDEX    DS    A
NAMEPTR  DS    A
SPARE    DS    A
LISTING  DCB   DDNAME=LISTING,DSORG=PS,MACRF=PM,RECFM=FBA,LRECL=133
         LTORG
WORK     DSECT
WEYE     DS    CL4
WSAVE    DS    18F
WORKLEN  EQU   *-WORK
         END   STRUCTUR
