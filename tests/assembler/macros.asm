*        Definitions of macros, comments that go on, operands with a        X
         remark in each line, and quotes. GETMAIN RU,LV=8 is none.
         MACRO
&LABEL   GETWORK &LEN=,&SP=0
&LABEL   GETMAIN RU,LV=&LEN,SP=&SP
         ST    1,WORKAREA
         MEND
.*       A comment of macros: FREEMAIN RU,LV=8,A=(1)
         PRINT NOGEN
FORMS    CSECT
FORMS    AMODE 31
FORMS    RMODE 24
         USING *,15
         B     START
         DC    AL1(8),CL8'FORMS'
         DC    C'GETMAIN RU,LV=8'
START    SAVE  (14,12)
         GETMAIN RU,                    unconditional                  X
               LV=PREFIX+L'NAME*2,      the length                     X
               SP=3,                    the subpool                    X
               LOC=(24,31)              and where it lies
         ST    1,FIRST_AREA
         GETMAIN EC,LV=(8),A=SECOND,MF=S
         LA    8,(PREFIX+4)*4
         GETMAIN EC,LV=(8),A=SECOND,RELATED='NO, IT''S NONE'
         LTR   15,15
         JNZ   NONE
NEXTONE  STORAGE OBTAIN,                                               X
               LENGTH=BIG_TABLE_LENGTH,                                X
               ADDR=BIG_TABLE_POINTER,                                 X
               STARTBDY=12
         BCT   7,NEXTONE
         storage release,length=big_table_length,                      x
               addr=big_table_pointer
         FREEMAIN EU,LV=(8),A=SECOND                    unknown by now
         L     2,FIRST_AREA
         FREEMAIN RC,LV=PREFIX+L'NAME*2,A=(2),SP=3
         MVC   FIRST_AREA,SECOND
         L     2,FIRST_AREA
         FREEMAIN RC,LV=44,A=(2),SP=3
NONE     RETURN (14,12),RC=0
PREFIX   EQU   B'1100'                  12
NAME     DC    CL20'A NAME, WITH A COMMA'
BIG_TABLE_LENGTH EQU 16*1024/2
BIG_TABLE_POINTER DS A
FIRST_AREA DS  A
SECOND   DS    A
         END   FORMS
         GETMAIN RU,LV=8
