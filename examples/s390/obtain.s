# obtain.s: GETMAIN and FREEMAIN by each supervisor call, on a region of two pages. obtain.job has the same requests as a script.
        .text
        .globl  _start
_start:
        basr    12,0
base:
# GETMAIN R,LV=64,SP=1: register 0 has the subpool and the length, register 1 is negative.
        l       0,sp1_64-base(12)
        l       1,negative-base(12)
        svc     10
        lr      4,1
# The program stores into its area, and reads it.
        l       2,pattern-base(12)
        st      2,0(4)
        l       3,0(4)
# FREEMAIN R,LV=64,SP=1
        l       0,sp1_64-base(12)
        lr      1,4
        svc     10
# GETMAIN EC,LV=8200,SP=2: the region is too small.
        la      1,ec-base(12)
        svc     4
# GETMAIN VC,LV=(65536,8),SP=2: as much as there is.
        la      1,vc-base(12)
        svc     4
# FREEMAIN VC,SP=2
        la      1,vc-base(12)
        svc     5
# GETMAIN LC,LA=(100,200),SP=3
        la      1,lc-base(12)
        svc     4
# FREEMAIN LC,SP=3
        la      1,lc-base(12)
        svc     5
# GETMAIN RU,LV=24,SP=4, and FREEMAIN RU twice: the second one abends.
        la      0,24
        la      15,0x402
        svc     120
        lr      4,1
        la      0,24
        lr      1,4
        la      15,0x403
        svc     120
        la      0,24
        lr      1,4
        la      15,0x403
        svc     120
        svc     3

        .balign 4
sp1_64:   .long 0x01000040
negative: .long 0x80000000
pattern:  .long 0xC1C2C3C4
ec:       .long 8200, field
          .byte 0x20, 2
          .balign 4
vc:       .long range, field
          .byte 0xE0, 2
          .balign 4
lc:       .long lengths, fields
          .byte 0xA0, 3
          .balign 4
range:    .long 8, 65536
lengths:  .long 100, 0x800000C8
field:    .long 0, 0
fields:   .long 0, 0
