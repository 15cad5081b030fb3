| A program for tests: an interlaced screen, and the word of VPOSR at each field, which says whether it is a long one.
        .text
        .long   0x8000, start
        .org    0x6c
        .long   level3
        .org    0x100
list:   .word   0x0180, 0x0005
        .word   0x6401, 0xfffe
        .word   0x0180, 0x0850
        .word   0xffff, 0xfffe
        .org    0x400
start:  lea     0xdff000, %a5
        move.w  #0x7fff, 0x9a(%a5)
        move.w  #0x7fff, 0x9c(%a5)
        move.w  #0x7fff, 0x96(%a5)
        move.l  #list, 0x80(%a5)
        move.w  %d0, 0x88(%a5)
        move.w  #0x0204, 0x100(%a5)
        move.w  #0x8280, 0x96(%a5)
        move.w  #0xc020, 0x9a(%a5)
        lea     0x4000, %a0
        move.w  #0x2000, %sr
loop:   bra     loop
level3: move.w  #0x20, 0xdff09c
        addq.l  #1, 0x3000
        move.w  0xdff004, (%a0)+
        rte
