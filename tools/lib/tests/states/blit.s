| A program for tests: an area blit of A, B and D that is stopped in its middle for seventy fields, then goes on to its
| end for sixty, again and again.
        .text
        .long   0x8000, start
        .org    0x6c
        .long   level3
        .org    0x400
        .equ    fields, 0x3000
        .equ    moment, 0x3004
start:  lea     0xdff000, %a5
        move.w  #0x7fff, 0x9a(%a5)
        move.w  #0x7fff, 0x9c(%a5)
        move.w  #0x7fff, 0x96(%a5)
        move.w  #0x8240, 0x96(%a5)
        move.w  #0xc020, 0x9a(%a5)
        move.w  #0x2000, %sr
loop:   bra     loop
level3: move.w  #0x20, 0xdff09c
        addq.l  #1, fields
        addq.w  #1, moment
        cmpi.w  #1, moment
        beq     begin
        cmpi.w  #70, moment
        beq     go_on
        cmpi.w  #130, moment
        bne     1f
        clr.w   moment
1:      rte
begin:  move.l  #0x0dfc0000, 0x40(%a5)  | D is A or B
        move.l  #0xffff7fff, 0x44(%a5)
        move.l  #0x00021000, 0x4c(%a5)
        move.l  #0x00022000, 0x50(%a5)
        move.l  #0x00024000, 0x54(%a5)
        move.l  #0x00000002, 0x60(%a5)
        move.l  #0x00080004, 0x64(%a5)
        move.l  #0x12345678, 0x70(%a5)
        move.w  #0x8000, 0x74(%a5)
        move.w  #100*64+18, 0x58(%a5)
        move.w  #507, %d1
2:      dbra    %d1, 2b
        move.w  #0x40, 0x96(%a5)
        rte
go_on:  move.w  #0x8040, 0x96(%a5)
        rte
