| A program for tests that lives above the first half of 1 MiB of chip memory: its code, Copper list, planes and stacks are
| there, and each field a blit copies a row of words there. Its counts lie at the end of the second half.
        .text
        .long   0x100000, start
        .org    0x6c
        .long   HIGH + level3 - code
        .org    0x100
        .equ    HIGH, 0x90000           | where the program goes
        .equ    LIST, 0xa0000
        .equ    PLANE, 0xb0000
        .equ    ROW, 0xf8000
        .equ    custom, 0xdff000
        .equ    frames, 0xff000
        .equ    rounds, 0xff004
        .equ    sums, 0xff008

start:  lea     custom, %a5
        move.w  #0x7fff, 0x9a(%a5)
        move.w  #0x7fff, 0x9c(%a5)
        move.w  #0x7fff, 0x96(%a5)
        lea     code(%pc), %a0
        lea     HIGH, %a1
        move.w  #(end-code)/2-1, %d0
1:      move.w  (%a0)+, (%a1)+
        dbf     %d0, 1b
        lea     list(%pc), %a0
        lea     LIST, %a1
        moveq   #(code-list)/2-1, %d0
2:      move.w  (%a0)+, (%a1)+
        dbf     %d0, 2b
        lea     ROW, %a1
        moveq   #64-1, %d0
3:      move.w  %d0, (%a1)+
        dbf     %d0, 3b
        move.l  #LIST, 0x80(%a5)
        move.w  %d0, 0x88(%a5)
        move.l  #0xffff0000, 0x44(%a5)
        move.l  #0, 0x64(%a5)           | BLTAMOD, BLTDMOD
        move.w  #0xffff, 0x46(%a5)
        move.w  #0x09f0, 0x40(%a5)
        move.w  #0, 0x42(%a5)
        move.l  #PLANE, 0x54(%a5)
        movea.l #0xe0000, %a0
        move.l  %a0, %usp
        movea.l #0x55555555, %a3
        jmp     HIGH

list:   .word   0x00e0, PLANE>>16, 0x00e2, 0x0000
        .word   0x008e, 0x2c81, 0x0090, 0x2cc1, 0x0092, 0x0038, 0x0094, 0x00d0
        .word   0x0100, 0x1200, 0x0102, 0x0000, 0x0108, 0x0000
        .word   0x0180, 0x0123, 0x0182, 0x0fed
        .word   0x6401, 0xfffe
        .word   0x0180, 0x0321
        .word   0xffff, 0xfffe

code:   move.w  #0x83c0, 0x96(%a5)
        move.w  #0xc020, 0x9a(%a5)
        move.w  #0x0000, %sr
loop:   addq.l  #1, rounds
        cmpa.l  #0xe0000, %sp
        bne     1f
        cmpa.l  #0x55555555, %a3
        beq     loop
1:      move.w  #0xdead, frames
        bra     1b
level3: move.l  %d0, -(%sp)
        addq.l  #1, frames
        move.l  #ROW, custom+0x50       | a row of 32 words goes on from where the last one ended
        move.w  #0x0060, custom+0x58
        move.l  frames, %d0
        add.l   %d0, sums
        addq.w  #1, ROW+6
        move.w  #0x0020, custom+0x9c
        move.l  (%sp)+, %d0
        rte
        .even
end:
