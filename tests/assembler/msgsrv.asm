MSG      CSECT
         CPOOL BUILD,PCELLCT=2,SCELLCT=4,CSIZE=64,CPID=(4),            X
               HDR='MESSAGES'
         GETMAIN MF=(E,TABLES)
         LTR   15,15
         BNZ   NOTABS
         CPOOL GET,UNCOND,CPID=(4)
         ST    1,M1
         CPOOL GET,UNCOND,CPID=(4)
         ST    1,M2
         CPOOL GET,COND,CPID=(4)
         LTR   1,1
         BNZ   HAVE
         CPOOL GET,UNCOND,CPID=(4)
HAVE     ST    1,M3
         L     2,M1
         MVC   0(5,2),=C'HELLO'
         STORAGE OBTAIN,LENGTH=32,ADDR=(3),SP=131,KEY=8,CHECKZERO=YES, X
               RTCD=RC
         MVC   0(5,3),0(2)
         CPOOL FREE,CPID=(4),CELL=(2)
         FREEMAIN LU,LA=BACK,A=BACKADDR,SP=3
         BR    14
TABLES   GETMAIN LC,LA=LENGTHS,A=ADDRS,SP=3,MF=L
LENGTHS  DC    F'512',X'80',AL3(256)
ADDRS    DS    2F
BACK     DC    F'256',X'80',AL3(512)
BACKADDR DS    2F                         the addresses, in that order
