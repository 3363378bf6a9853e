***********************************************************************
*  GROWBUF: reads a text into a buffer that grows: a larger one is    *
*  obtained, the text is moved, and the old one is released.          *
*                                                                     *
*  OPTIONS --region 2M --path GROW,TOOLONG                            *
*  LEAK    BUFFER                                                     *
*  OPEN    nothing.                                                   *
***********************************************************************
GROWBUF  CSECT
GROWBUF  AMODE 31
GROWBUF  RMODE ANY
R1       EQU   1
R2       EQU   2
R3       EQU   3
R4       EQU   4
R5       EQU   5
R6       EQU   6
R7       EQU   7
R10      EQU   10
R12      EQU   12
R13      EQU   13
R14      EQU   14
R15      EQU   15
         BAKR  R14,0
         LARL  R12,DATA
         USING DATA,R12
         STORAGE OBTAIN,LENGTH=WORKLEN,ADDR=(R10),COND=YES
         LTR   R15,R15
         JNZ   NOWORK
         USING WORK,R10
         ST    R10,WORKPTR
         LA    R13,WSAVE
         MVC   WSAVE+4(4),=C'F1SA'
         LHI   R4,FIRSTLEN
         ST    R4,BUFLEN
         STORAGE OBTAIN,LENGTH=FIRSTLEN,ADDR=BUFFER,SP=2
         OPEN  (INPUT,(INPUT),ERRORS,(OUTPUT))
         SR    R7,R7
READ     GET   INPUT,LINE
         L     R1,BUFFER
         ALR   R1,R7
         MVC   0(80,R1),LINE
         L     R1,LINES
         AHI   R1,1
         ST    R1,LINES
         LA    R7,80(,R7)
         C     R7,BUFLEN
         JH    GROW
         J     READ
*
*  The buffer is full: one of twice the length is obtained.
*
GROW     L     R5,BUFLEN
         SLL   R5,1
         C     R5,=F'65536'
         JH    TOOLONG
         STORAGE OBTAIN,LENGTH=(R5),ADDR=(R6),SP=2
         L     R2,BUFFER
         L     R3,BUFLEN
         LR    R14,R6
         LR    R15,R5
         MVCL  R14,R2
         L     R2,BUFFER
         L     R3,BUFLEN
         STORAGE RELEASE,LENGTH=(R3),ADDR=(R2),SP=2
         ST    R6,BUFFER
         ST    R5,BUFLEN
         J     READ
ENDREAD  L     R2,BUFFER
         L     R3,BUFLEN
         STORAGE RELEASE,LENGTH=(R3),ADDR=(R2),SP=2
         J     DONE
*
*  LEAK: a text that is too long is refused, and its buffer stays.
*
TOOLONG  WTO   'GROWBUF - TEXT TOO LONG'
         GETMAIN RU,LV=ERRLEN,LOC=ANY
         ST    R1,ERRPTR
         LR    R2,R1
         MVC   0(ERRLEN,R2),ERRTEXT
         PUT   ERRORS,(R2)
         L     R2,ERRPTR
         FREEMAIN RU,LV=ERRLEN,A=(R2)
DONE     CLOSE (INPUT,,ERRORS)
         L     R2,WORKPTR
         STORAGE RELEASE,LENGTH=WORKLEN,ADDR=(R2)
NOWORK   SR    R15,R15
         PR
DATA     DS    0D
FIRSTLEN EQU   8192
ERRLEN   EQU   L'ERRTEXT
ERRTEXT  DC    CL120'THE TEXT HAS MORE THAN 65536 CHARACTERS'
WORKPTR  DS    A
BUFFER   DS    A
BUFLEN   DS    F
LINES    DC    F'0'                           how many were read
ERRPTR   DS    A
LINE     DS    CL80
INPUT    DCB   DDNAME=INPUT,DSORG=PS,MACRF=GM,EODAD=ENDREAD
ERRORS   DCB   DDNAME=ERRORS,DSORG=PS,MACRF=PM
         LTORG
WORK     DSECT
WSAVE    DS    18F
WORKLEN  EQU   *-WORK
         END   GROWBUF
