* Cell pools in words and in registers, two programs that are called.
POOLS    CSECT
POOLS    AMODE 31
POOLS    RMODE ANY
         STM   14,12,12(13)
         LARL  12,CONSTS
         USING CONSTS,12
         CPOOL BUILD,PCELLCT=CELLS,SCELLCT=CELLS/4,CSIZE=CELLLEN,      X
               SP=1,CPID=SMALL,HDR='SMALL CELLS',LOC=(31,64)
         CPOOL BUILD,PCELLCT=8,CSIZE=4096,SP=2,CPID=(0),               X
               KEY=8,TCB=0
         CPOOL BUILD,PCELLCT=8,CSIZE=4096,SP=2,CPID=(0)
         ST    0,LARGE
         LA    5,CELLS
LOOP     CPOOL GET,U,CPID=SMALL,CELL=(4),REGS=SAVE
         ST    4,LASTCELL
         BCT   5,LOOP
         CPOOL GET,COND,CPID=LARGE,REGS=USE
         LTR   9,1
         JZ    FULL
         ST    9,BIGCELL
FULL     L     15,=V(HELP)
         BASR  14,15
         L     6,LARGE
         CPOOL FREE,CPID=(6),CELL=BIGCELL
         L     2,LASTCELL
         CPOOL FREE,CPID=SMALL,CELL=(2)
         CPOOL DELETE,CPID=(6)
         CPOOL DELETE,CPID=SMALL
         CPOOL EXTEND,CPID=SMALL
         LM    14,12,12(13)
         SR    15,15
         BR    14
CELLS    EQU   100
CELLLEN  EQU   L'CELL+4
CONSTS   DS    0D
SMALL    DS    F
LARGE    DS    F
LASTCELL DS    A
BIGCELL  DS    A
CELL     DS    XL60
         LTORG
*        A subroutine: its requests are of the same task.
HELP     CSECT
         LARL  12,HERE
         USING HERE,12
HERE     GETMAIN R,LV=128
         LR    9,1
         FREEMAIN R,LV=128,A=(9)
         BR    14
         END   POOLS
