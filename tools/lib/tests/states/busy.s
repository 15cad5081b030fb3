| A program for tests: a loop in user mode that checks its registers, traps, and counts; three interrupts that count,
| and read the times of day.
        .text
        .long   0x8000, start
        .org    0x68
        .long   level2, level3
        .org    0x78
        .long   level6
        .org    0x80
        .long   trap0
        .org    0x100
list:   .word   0x0180, 0x0005
        .word   0x6401, 0xfffe
        .word   0x0180, 0x0850
        .word   0xffff, 0xfffe

        .equ    custom, 0xdff000
        .equ    ciaa, 0xbfe001
        .equ    ciab, 0xbfd000
        .equ    frames, 0x3000
        .equ    ticks_a, 0x3004
        .equ    ticks_b, 0x3008
        .equ    traps, 0x300c
        .equ    rounds, 0x3010
        .equ    tod_a, 0x3014
        .equ    tod_b, 0x3018
        .equ    place, 0x301c
        .equ    wrong, 0x3020

        .org    0x400
start:  lea     custom, %a5
        move.w  #0x7fff, 0x9a(%a5)
        move.w  #0x7fff, 0x9c(%a5)
        move.w  #0x7fff, 0x96(%a5)
        move.l  #list, 0x80(%a5)
        move.w  %d0, 0x88(%a5)
        move.b  #0x7f, ciaa+0xd00
        move.b  #0x7f, ciab+0xd00
        tst.b   ciaa+0xd00
        tst.b   ciab+0xd00
        move.b  #0x34, ciaa+0x400       | timer A of CIA A: each 4661 ticks
        move.b  #0x12, ciaa+0x500
        move.b  #0x77, ciab+0x600       | timer B of CIA B: each 1912 ticks
        move.b  #0x07, ciab+0x700
        move.b  #0, ciaa+0xa00          | both times of day run from 0
        move.b  #0, ciaa+0x900
        move.b  #0, ciaa+0x800
        move.b  #0, ciab+0xa00
        move.b  #0, ciab+0x900
        move.b  #0, ciab+0x800
        move.b  #0x81, ciaa+0xd00
        move.b  #0x82, ciab+0xd00
        move.b  #0x11, ciaa+0xe00
        move.b  #0x11, ciab+0xf00
        move.w  #0x8280, 0x96(%a5)
        move.w  #0xe028, 0x9a(%a5)
        movea.l #0x7000, %a0
        move.l  %a0, %usp
        movem.l values, %d0-%d7/%a0-%a6
        move.w  #0x0000, %sr
loop:   addq.l  #1, rounds
        trap    #0
        cmp.l   #0x11111111, %d1
        bne     bad
        cmp.l   #0x77777777, %d7
        bne     bad
        cmpa.l  #0xa4a4a4a4, %a4
        bne     bad
        cmpa.l  #0xa6a6a6a6, %a6
        bne     bad
        cmpa.l  #0x7000, %sp
        bne     bad
        rol.l   #1, %d0
        .rept   8
        addq.l  #1, (%a3)
        .endr
        bra     loop
bad:    addq.l  #1, wrong
        bra     loop

level2: move.l  %d0, -(%sp)
        move.b  ciaa+0xd00, %d0
        addq.l  #1, ticks_a
        move.w  #0x0008, custom+0x9c
        move.l  (%sp)+, %d0
        rte
level6: move.l  %d0, -(%sp)
        move.b  ciab+0xd00, %d0
        addq.l  #1, ticks_b
        move.w  #0x2000, custom+0x9c
        move.l  (%sp)+, %d0
        rte
level3: move.l  %d0, -(%sp)
        addq.l  #1, frames
        move.w  custom+6, place
        move.b  ciaa+0xa00, %d0
        move.b  %d0, tod_a
        move.b  ciaa+0x900, %d0
        move.b  %d0, tod_a+1
        move.b  ciaa+0x800, %d0
        move.b  %d0, tod_a+2
        move.b  ciab+0xa00, %d0
        move.b  %d0, tod_b
        move.b  ciab+0x900, %d0
        move.b  %d0, tod_b+1
        move.b  ciab+0x800, %d0
        move.b  %d0, tod_b+2
        move.w  #0x0020, custom+0x9c
        move.l  (%sp)+, %d0
        rte
trap0:  addq.l  #1, traps
        rte
        .even
values: .long   0x00000001, 0x11111111, 0x22222222, 0x33333333, 0x44444444, 0x55555555, 0x66666666, 0x77777777
        .long   0xa0a0a0a0, 0xa1a1a1a1, 0xa2a2a2a2, 0x00003024, 0xa4a4a4a4, 0xa5a5a5a5, 0xa6a6a6a6
