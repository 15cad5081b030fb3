| Balls that jump over a grid: the processor, the blitter, the Copper, four bitplanes and two sprites at work.
|
| At each vertical blanking an interrupt has the blitter put the clean picture over the balls where they were, and cut the balls
| in where they are now. It also moves the saucer, which is two sprites. Between the interrupts the processor works out the
| colours of the floor's lines, which move towards the eye, and writes them into the Copper list; then it makes pseudo-random
| numbers.
|
| The four bitplanes are interleaved: a row of the picture is a row of each plane, one after another, and so are the rows of a
| ball and of its mask. So one blit has all planes of a ball. What lies from LIST on is made by make.py, and so are the tables.

        .equ    LIST, 0x1000            | the Copper list
        .equ    BALL, 0x2800            | 32 rows of 4 planes of 2 words, and the mask behind them
        .equ    MASK, BALL+512
        .equ    SAUCER, 0x2c00          | two sprites, each of two control words and its rows
        .equ    STACK, 0x3000
        .equ    CLEAN, 0x4000           | the picture without balls
        .equ    SCREEN, 0x10000

        .equ    ROW, 160                | bytes from one row of the picture to the next
        .equ    BALLS, 5
        .equ    GROUND, 203             | the row of a ball's top when it lies
        .equ    SAUCER_ROWS, 14
        .equ    SAUCER_BYTES, 4+4*SAUCER_ROWS+4
        .equ    FLOOR, LIST+FLOOR_AT    | the floor's entries in the list, one for each line
        .equ    ENTRY, 12               | of a wait, and moves of COLOR00 and COLOR01
        .equ    BEFORE_256, 62          | so many lines of the floor come before line 256, whose wait stands behind them

        .equ    DMACONR, 0x02
        .equ    BLTCON0, 0x40
        .equ    BLTAFWM, 0x44
        .equ    BLTCPT, 0x48
        .equ    BLTBPT, 0x4c
        .equ    BLTAPT, 0x50
        .equ    BLTDPT, 0x54
        .equ    BLTSIZE, 0x58
        .equ    BLTCMOD, 0x60
        .equ    BLTAMOD, 0x64
        .equ    COP1LC, 0x80
        .equ    COPJMP1, 0x88
        .equ    DMACON, 0x96
        .equ    INTENA, 0x9a
        .equ    INTREQ, 0x9c
        .equ    VERTB, 0x0020

        .text
        .long   STACK
        .long   start
        .org    4*27
        .long   blanking                | the interrupts of level 3
        .org    0x100

start:  lea     0xdff000,%a5
        move.l  #LIST,COP1LC(%a5)
        move.w  %d0,COPJMP1(%a5)
        move.w  #0x87e0,DMACON(%a5)     | bitplanes, Copper, blitter and sprites; the blitter before the processor
        move.l  #0x09f00000,BLTCON0(%a5)
        moveq   #-1,%d0
        move.l  %d0,BLTAFWM(%a5)
        move.l  #CLEAN,BLTAPT(%a5)
        move.l  #SCREEN,BLTDPT(%a5)
        clr.l   BLTAMOD(%a5)
        move.w  #0*64+20,BLTSIZE(%a5)   | 1024 rows of 20 words: the whole picture
        move.w  #0x0400,DMACON(%a5)     | which has to wait until the blit is done; from here on they share
        move.w  #VERTB,INTREQ(%a5)
        move.w  #0xc000+VERTB,INTENA(%a5)
        move    #0x2000,%sr

| Between the interrupts

        moveq   #1,%d6
        moveq   #0,%d7                  | the frame whose floor was last worked out
chance: mulu    #25173,%d6              | the low word is the next number, of which the high one is summed up
        addi.w  #13849,%d6
        move.l  %d6,%d5
        swap    %d5
        eor.w   %d5,sum
        addq.l  #1,count
        cmp.w   frame,%d7
        beq.s   chance
        move.w  frame,%d7
        bsr.s   floor
        bra.s   chance

| The floor's colours into the Copper list: its ground from a table, and then the lines across, whose distances are 24 apart and
| fall by 2 with each frame. One at distance z is seen 2160 / z lines below the horizon.

floor:  lea     ground(%pc),%a0
        lea     FLOOR+6,%a1
        moveq   #BEFORE_256-1,%d0
1:      move.w  (%a0)+,(%a1)
        lea     ENTRY(%a1),%a1
        dbf     %d0,1b
        addq.l  #4,%a1
        moveq   #FLOOR_LINES-BEFORE_256-1,%d0
2:      move.w  (%a0)+,(%a1)
        lea     ENTRY(%a1),%a1
        dbf     %d0,2b

        move.w  %d7,%d0
        add.w   %d0,%d0
        ext.l   %d0
        divu    #24,%d0
        swap    %d0                     | twice the frame, modulo 24
        moveq   #44,%d1
        sub.w   %d0,%d1                 | the distance of the nearest line
        moveq   #12-1,%d2
3:      move.l  #2160,%d3
        divu    %d1,%d3
        cmpi.w  #FLOOR_LINES,%d3
        bcc.s   5f
        lea     glow(%pc),%a0
        move.w  %d3,%d4
        lsr.w   #3,%d4
        add.w   %d4,%d4
        move.w  (%a0,%d4.w),%d4         | the nearer the brighter
        lea     FLOOR+6,%a1
        cmpi.w  #BEFORE_256,%d3
        bcs.s   4f
        addq.l  #4,%a1
4:      mulu    #ENTRY,%d3
        move.w  %d4,(%a1,%d3.l)
5:      addi.w  #24,%d1
        dbf     %d2,3b
        rts

| Vertical blanking

blanking:
        movem.l %d0-%d5/%a0-%a2,-(%sp)
        move.w  #VERTB,INTREQ(%a5)
        addq.w  #1,frame
        bsr.s   saucer

        lea     balls(%pc),%a2
        moveq   #BALLS-1,%d5
1:      bsr.w   clean
        lea     8(%a2),%a2
        dbf     %d5,1b

        lea     balls(%pc),%a2
        moveq   #BALLS-1,%d5
2:      bsr.w   jump
        lea     8(%a2),%a2
        dbf     %d5,2b

        movem.l (%sp)+,%d0-%d5/%a0-%a2
        rte

| The saucer: its place by a table, as control words of both sprites

saucer: move.w  frame,%d0
        andi.w  #63,%d0
        add.w   %d0,%d0
        lea     sway(%pc),%a0
        move.w  (%a0,%d0.w),%d1
        asr.w   #3,%d1
        addi.w  #44+28,%d1              | its first line
        move.w  %d1,%d2
        addi.w  #SAUCER_ROWS,%d2        | and the one behind its last
        lsl.w   #8,%d1
        lsl.w   #8,%d2
        move.w  (%a0,%d0.w),%d0
        addi.w  #129+144,%d0            | the position of its left half
        lea     SAUCER,%a0
        moveq   #2-1,%d3
1:      move.w  %d0,%d4
        lsr.w   #1,%d4
        move.b  %d4,%d1
        move.w  %d1,(%a0)               | SPRnPOS
        move.b  %d0,%d2
        andi.b  #1,%d2
        move.w  %d2,2(%a0)              | SPRnCTL
        lea     SAUCER_BYTES(%a0),%a0
        addi.w  #16,%d0
        dbf     %d3,1b
        rts

| The clean picture over a ball: 32 rows of 4 planes, 3 words each

clean:  move.l  4(%a2),%d0
        bsr.w   idle
        move.l  #0x09f00000,BLTCON0(%a5)
        moveq   #-1,%d1
        move.l  %d1,BLTAFWM(%a5)
        move.l  #34<<16+34,BLTAMOD(%a5)
        move.l  %d0,%d1
        addi.l  #CLEAN,%d0
        addi.l  #SCREEN,%d1
        move.l  %d0,BLTAPT(%a5)
        move.l  %d1,BLTDPT(%a5)
        move.w  #128*64+3,BLTSIZE(%a5)
        rts

| The next place of a ball, and the ball there: where the mask is set its image, elsewhere what was there

jump:   move.w  2(%a2),%d0
        addq.w  #1,%d0
        andi.w  #63,%d0
        move.w  %d0,2(%a2)
        add.w   %d0,%d0
        lea     height(%pc),%a0
        move.w  #GROUND,%d1
        sub.w   (%a0,%d0.w),%d1
        mulu    #ROW,%d1
        move.w  (%a2),%d0
        lsr.w   #4,%d0
        add.w   %d0,%d0
        add.w   %d0,%d1
        move.l  %d1,4(%a2)
        addi.l  #SCREEN,%d1
        move.w  (%a2),%d0
        ror.w   #4,%d0
        andi.w  #0xf000,%d0             | by so many pixels image and mask are shifted
        move.w  %d0,%d2
        ori.w   #0x0fca,%d0
        swap    %d0
        move.w  %d2,%d0
        bsr.s   idle
        move.l  %d0,BLTCON0(%a5)
        move.l  #0xffff0000,BLTAFWM(%a5)
        move.l  #34<<16+0xfffe,BLTCMOD(%a5)
        move.l  #0xfffe<<16+34,BLTAMOD(%a5)
        move.l  %d1,BLTCPT(%a5)
        move.l  #BALL,BLTBPT(%a5)
        move.l  #MASK,BLTAPT(%a5)
        move.l  %d1,BLTDPT(%a5)
        move.w  #128*64+3,BLTSIZE(%a5)
        rts

| Waits until the blitter is free

idle:   btst    #6,DMACONR(%a5)
        bne.s   idle
        rts

        .balign 2
frame:  .word   0
sum:    .word   0
count:  .long   0
balls:  .word   21, 3                   | the column; where it is in its jump; the place of its words in the picture
        .long   0
        .word   83, 24
        .long   0
        .word   144, 40
        .long   0
        .word   207, 13
        .long   0
        .word   266, 52
        .long   0

        .include "tables"
