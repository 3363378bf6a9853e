*        The record of an article, and its key.
INVREC   DSECT
INVKEY   DS    CL12
INVNAME  DS    CL40
INVCOUNT DS    F
INVPRICE DS    PL7
         DS    0F
INVLEN   EQU   *-INVREC
