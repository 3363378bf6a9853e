# tree.s: a subtask that is given a subpool, obtains there, and touches storage that it does not have. tree.job has the same requests.
        .text
        .globl  _start
_start:
        basr    12,0
base:
# GETMAIN RC,LV=200,SP=7
        la      0,200
        la      15,0x700
        svc     120
        lr      4,1
# ATTACH TASK=SUB,GSPV=7: the example's own parameter list has the name, the entry, and the subpool that is given and the one shared.
        la      1,attach-base(12)
        svc     42
# FREEMAIN RC,LV=200,SP=7: this subpool of the task is another one now.
        la      0,200
        lr      1,4
        la      15,0x701
        svc     120
# ABEND 77
        la      1,77
        svc     13

sub:    basr    11,0
subbase:
# GETMAIN RC,LV=300,SP=7
        la      0,300
        la      15,0x700
        svc     120
        lr      5,1
# An access to a page that no task has: a protection exception.
        l       6,far-subbase(11)
        l       7,0(6)
        svc     3

        .balign 4
attach: .ascii  "SUB     "
        .long   sub
        .byte   7, 0
        .balign 4
far:    .long   0x00008000
