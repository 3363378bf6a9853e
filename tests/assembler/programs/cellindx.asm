***********************************************************************
*  CELLINDX: an index whose nodes are cells. Two pools: one of nodes, *
*  one of texts.                                                      *
*                                                                     *
*  OPTIONS --region 1M,16M --path NODES,REMOVE                        *
*  LEAK    TEXTPOOL                                                   *
*  OPEN    nothing on the path; IARV64 at its end is not modelled.    *
***********************************************************************
CELLINDX CSECT
CELLINDX AMODE 31
CELLINDX RMODE ANY
         STM   14,12,12(13)
         LARL  12,CONSTS
         USING CONSTS,12
         STORAGE OBTAIN,LENGTH=DYNLEN,ADDR=(10)
         ST    10,DYNPTR
         USING DYN,10
         ST    13,DYNSAVE+4
         LA    13,DYNSAVE
         CPOOL BUILD,PCELLCT=50,SCELLCT=25,CSIZE=NODELEN,SP=4,         X
               CPID=NODEPOOL,LOC=(31,64),HDR='NODES'
         CPOOL BUILD,PCELLCT=20,CSIZE=256,SP=5,CPID=(0),LOC=31,        X
               HDR='TEXTS'
         ST    0,TEXTPOOL
         CLI   KIND,C'N'
         BE    NODES
         BAS   14,TEXTS
         B     REMOVE
NODES    CPOOL GET,U,CPID=NODEPOOL,CELL=(4),REGS=SAVE
         ST    4,ROOT
         CPOOL GET,U,CPID=NODEPOOL,CELL=(5),REGS=SAVE
         ST    5,LEFT
         CPOOL GET,COND,CPID=TEXTPOOL
         LTR   1,1
         BZ    NOTEXT
         ST    1,TEXT
NOTEXT   DS    0H
         BAS   14,SETKEYS
         BAS   14,TEXTS
         B     REMOVE
*
*  TEXTS: fills a cell of text, and gives it back.
*
TEXTS    LR    9,14
         CPOOL GET,U,CPID=TEXTPOOL,CELL=WORKTEXT
         L     3,WORKTEXT
         MVC   0(20,3),=CL20'A TEXT'
         L     3,WORKTEXT
         CPOOL FREE,CPID=TEXTPOOL,CELL=(3)
         BR    9
*
*  SETKEYS: gives both nodes their keys, and links them.
*
SETKEYS  L     3,LEFT
         USING NODE,3
         XC    NODEL(8),NODEL
         MVC   NODEKEY,=CL16'LEFT'
         MVC   NODETEXT,TEXT
         L     3,ROOT
         MVC   NODEL,LEFT
         XC    NODER,NODER
         MVC   NODEKEY,=CL16'ROOT'
         DROP  3
         BR    14
*
*  LEAK: the pool of nodes is deleted, that of texts is not.
*
REMOVE   L     2,LEFT
         CPOOL FREE,CPID=NODEPOOL,CELL=(2)
         L     2,ROOT
         CPOOL FREE,CPID=NODEPOOL,CELL=(2)
         L     2,TEXT
         LTR   2,2
         BZ    NOMORE
         CPOOL FREE,CPID=TEXTPOOL,CELL=(2)
NOMORE   L     6,NODEPOOL
         CPOOL DELETE,CPID=(6)
         IARV64 REQUEST=DETACH,MATCH=USERTOKEN,USERTKN=TOKEN,COND=YES
         L     13,DYNSAVE+4
         L     2,DYNPTR
         STORAGE RELEASE,LENGTH=DYNLEN,ADDR=(2)
         LM    14,12,12(13)
         SVC   3
CONSTS   DS    0D
KIND     DC    C'N'
DYNPTR   DS    A
NODEPOOL DS    F
TEXTPOOL DS    F
ROOT     DS    A
LEFT     DS    A
TEXT     DS    A
WORKTEXT DS    A
TOKEN    DS    D
         LTORG
NODE     DSECT
NODEL    DS    A
NODER    DS    A
NODEKEY  DS    CL16
NODETEXT DS    A
NODELEN  EQU   *-NODE
DYN      DSECT
DYNSAVE  DS    18F
DYNLEN   EQU   *-DYN
         END   CELLINDX
