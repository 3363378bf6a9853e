LISTING  CSECT
         STM   14,12,12(13)
         LR    12,15
         USING LISTING,12
         GETMAIN RU,LV=4096,SP=1               the page
         ST    1,PAGE
NEXT     GETMAIN RU,LV=120,SP=1                a line of it
         ST    1,LINE
         BAL   10,FORMAT
         L     2,LINE
         FREEMAIN RU,LV=112,A=(2),SP=1
         BCT   5,NEXT
         L     2,PAGE
         FREEMAIN RU,LV=4096,A=(2),SP=1
         LM    14,12,12(13)
         SR    15,15
         BR    14
FORMAT   MVI   0(1),C' '
         BR    10
PAGE     DS    A
LINE     DS    A
         END   LISTING
