| Eight balls over the sea: sprites that an interrupt moves, a sky by the Copper with a light that the interrupt moves
| through its list, and stars in one bitplane that the program plots once.
|
| make.sh assembles this to `image`. All of it lies below 64 KiB, so the high half of each address is 0.

        .equ    custom, 0xdff000        | the custom registers, whose offsets follow
        .equ    COP1LC, 0x080
        .equ    COPJMP1, 0x088
        .equ    DMACON, 0x096
        .equ    INTENA, 0x09a
        .equ    INTREQ, 0x09c

        .equ    FIRST_LINE, 44
        .equ    STEPS, 128              | steps of the sky, two lines each
        .equ    HORIZON, 88             | the step at which the sea begins
        .equ    LIGHT, 12               | steps of the light
        .equ    BALLS, 8
        .equ    BALL_ROWS, 16
        .equ    BALL_BYTES, 4 * BALL_ROWS + 8
        .equ    STARS, 90
        .equ    ROW_BYTES, 40

        .text
| The reset reads these two: the supervisor stack, which grows down from the end of memory, and the first instruction.
        .long   0x80000, start
        .org    0x6c                    | the vector of level 3, where the field's interrupt comes
        .long   field
        .org    0x100

start:  lea     custom, %a5
        move.w  #0x7fff, INTENA(%a5)
        move.w  #0x7fff, INTREQ(%a5)
        move.w  #0x7fff, DMACON(%a5)
        bsr     plot_stars
        bsr     copy_balls
        bsr     keep_sky
        bsr     move_balls
        bsr     move_light
        move.l  #list, COP1LC(%a5)
        move.w  %d0, COPJMP1(%a5)
        move.w  #0x83a0, DMACON(%a5)    | bitplane, Copper and sprites
        move.w  #0xc020, INTENA(%a5)    | the field's interrupt
        move.w  #0x2000, %sr
wait:   bra     wait

| Each field: the next moment, shown from this field on.
field:  movem.l %d0-%d7/%a0-%a4, -(%sp)
        move.w  #0x0020, custom+INTREQ
        addq.w  #1, moment
        bsr     move_balls
        bsr     move_light
        movem.l (%sp)+, %d0-%d7/%a0-%a4
        rte

| Stars at random places of the upper 150 rows.
plot_stars:
        lea     plane, %a0
        move.w  #1234, %d0
        moveq   #STARS-1, %d1
1:      mulu    #25173, %d0
        add.w   #13849, %d0
        moveq   #0, %d2
        move.w  %d0, %d2
        divu    #150 * ROW_BYTES, %d2
        swap    %d2                     | the rest: a byte of those rows
        move.w  %d0, %d3
        rol.w   #5, %d3
        bset    %d3, (%a0,%d2.w)
        dbra    %d1, 1b
        rts

| The image of a ball for each sprite, behind its two control words.
copy_balls:
        lea     balls, %a1
        moveq   #BALLS-1, %d0
1:      lea     ball, %a0
        addq.l  #4, %a1
        moveq   #BALL_ROWS-1, %d1
2:      move.l  (%a0)+, (%a1)+
        dbra    %d1, 2b
        addq.l  #4, %a1                 | two words of 0 end the sprite
        dbra    %d0, 1b
        rts

| The colours of the list's steps, before the light comes over them.
keep_sky:
        lea     sky, %a0
        lea     colours, %a1
        moveq   #STEPS-1, %d0
1:      bsr     next_step
        move.w  (%a2), (%a1)+
        dbra    %d0, 1b
        rts

| Gives in %a2 where the colour of the step at %a0 stands, and moves %a0 on: WAIT, then MOVE to COLOR00.
next_step:
        cmpi.w  #0xffdf, (%a0)          | the WAIT that goes past line 255
        bne     1f
        addq.l  #4, %a0
1:      lea     6(%a0), %a2
        addq.l  #8, %a0
        rts

| Ball n is at angle 2t + 32n across and 3t + 32n down.
move_balls:
        lea     balls, %a0
        lea     sine, %a1
        move.w  moment, %d0
        add.w   %d0, %d0                | across
        move.w  moment, %d1
        add.w   %d0, %d1                | down
        moveq   #BALLS-1, %d2
1:      moveq   #0, %d3
        move.b  %d0, %d3
        move.b  (%a1,%d3.w), %d4
        ext.w   %d4
        add.w   #281, %d4               | position: 281 is the middle of the picture
        move.b  %d1, %d3
        move.b  (%a1,%d3.w), %d5
        ext.w   %d5
        move.w  %d5, %d6
        asr.w   #2, %d6
        sub.w   %d6, %d5
        add.w   #150, %d5               | first line
        bsr     place_ball
        lea     BALL_BYTES(%a0), %a0
        add.w   #32, %d0
        add.w   #32, %d1
        dbra    %d2, 1b
        rts

| Control words at %a0 for a ball at position %d4 and first line %d5.
place_ball:
        move.w  %d5, %d6
        add.w   #BALL_ROWS, %d6         | the line after the last
        move.b  %d5, (%a0)
        move.w  %d4, %d7
        lsr.w   #1, %d7
        move.b  %d7, 1(%a0)
        move.b  %d6, 2(%a0)
        moveq   #0, %d7
        lsr.w   #8, %d5
        lsl.w   #2, %d5
        or.b    %d5, %d7                | the ninth bits: of the first line,
        lsr.w   #8, %d6
        lsl.w   #1, %d6
        or.b    %d6, %d7                | of the line after the last,
        and.w   #1, %d4
        or.b    %d4, %d7                | and bit 0 of the position
        move.b  %d7, 3(%a0)
        rts

| The whole sky anew, with a light over LIGHT steps of it that goes up and down.
move_light:
        move.w  moment, %d0
        and.w   #255, %d0
        lea     sine, %a1
        move.b  (%a1,%d0.w), %d0
        ext.w   %d0
        asr.w   #2, %d0
        add.w   #36, %d0                | first step of the light: 5 to 67
        lea     sky, %a0
        lea     colours, %a1
        lea     light, %a3
        moveq   #0, %d1
1:      bsr     next_step
        move.w  (%a1)+, %d2
        move.w  %d1, %d3
        sub.w   %d0, %d3
        cmp.w   #LIGHT, %d3             | unsigned: steps before the light are far above
        bcc     2f
        add.w   %d3, %d3
        or.w    (%a3,%d3.w), %d2
2:      move.w  %d2, (%a2)
        addq.w  #1, %d1
        cmp.w   #HORIZON, %d1
        bne     1b
        rts

        .even
light:  .word   0x010, 0x020, 0x030, 0x040, 0x050, 0x060, 0x060, 0x050, 0x040, 0x030, 0x020, 0x010

ball:   .word   0x0700, 0x07e0, 0x1f80, 0x1ff8, 0x3f84, 0x3ff8, 0x7f86, 0x7ff8
        .word   0x7f86, 0x7ff8, 0x7f07, 0xfff8, 0x7e07, 0xfff8, 0x7c0f, 0xfff0
        .word   0x001f, 0xffe0, 0x001f, 0xffe0, 0x007f, 0xff80, 0x00fe, 0x7f00
        .word   0x67fe, 0x1800, 0x3ffc, 0x0000, 0x1ff8, 0x0000, 0x07e0, 0x0000

| 127 times the sine of 256 angles
sine:   .byte   0, 3, 6, 9, 12, 16, 19, 22, 25, 28, 31, 34, 37, 40, 43, 46
        .byte   49, 51, 54, 57, 60, 63, 65, 68, 71, 73, 76, 78, 81, 83, 85, 88
        .byte   90, 92, 94, 96, 98, 100, 102, 104, 106, 107, 109, 111, 112, 113, 115, 116
        .byte   117, 118, 120, 121, 122, 122, 123, 124, 125, 125, 126, 126, 126, 127, 127, 127
        .byte   127, 127, 127, 127, 126, 126, 126, 125, 125, 124, 123, 122, 122, 121, 120, 118
        .byte   117, 116, 115, 113, 112, 111, 109, 107, 106, 104, 102, 100, 98, 96, 94, 92
        .byte   90, 88, 85, 83, 81, 78, 76, 73, 71, 68, 65, 63, 60, 57, 54, 51
        .byte   49, 46, 43, 40, 37, 34, 31, 28, 25, 22, 19, 16, 12, 9, 6, 3
        .byte   0, -3, -6, -9, -12, -16, -19, -22, -25, -28, -31, -34, -37, -40, -43, -46
        .byte   -49, -51, -54, -57, -60, -63, -65, -68, -71, -73, -76, -78, -81, -83, -85, -88
        .byte   -90, -92, -94, -96, -98, -100, -102, -104, -106, -107, -109, -111, -112, -113, -115, -116
        .byte   -117, -118, -120, -121, -122, -122, -123, -124, -125, -125, -126, -126, -126, -127, -127, -127
        .byte   -127, -127, -127, -127, -126, -126, -126, -125, -125, -124, -123, -122, -122, -121, -120, -118
        .byte   -117, -116, -115, -113, -112, -111, -109, -107, -106, -104, -102, -100, -98, -96, -94, -92
        .byte   -90, -88, -85, -83, -81, -78, -76, -73, -71, -68, -65, -63, -60, -57, -54, -51
        .byte   -49, -46, -43, -40, -37, -34, -31, -28, -25, -22, -19, -16, -12, -9, -6, -3

        .even
list:   .word   0x0100, 0x1200          | BPLCON0: one bitplane
        .word   0x0102, 0x0000, 0x0104, 0x0024
        .word   0x008e, 0x2c81, 0x0090, 0x2cc1
        .word   0x0092, 0x0038, 0x0094, 0x00d0
        .word   0x0108, 0x0000, 0x010a, 0x0000
        .word   0x00e0, 0x0000, 0x00e2, plane
        .word   0x0120, 0x0000, 0x0122, balls + 0 * BALL_BYTES
        .word   0x0124, 0x0000, 0x0126, balls + 1 * BALL_BYTES
        .word   0x0128, 0x0000, 0x012a, balls + 2 * BALL_BYTES
        .word   0x012c, 0x0000, 0x012e, balls + 3 * BALL_BYTES
        .word   0x0130, 0x0000, 0x0132, balls + 4 * BALL_BYTES
        .word   0x0134, 0x0000, 0x0136, balls + 5 * BALL_BYTES
        .word   0x0138, 0x0000, 0x013a, balls + 6 * BALL_BYTES
        .word   0x013c, 0x0000, 0x013e, balls + 7 * BALL_BYTES
        .word   0x0182, 0x0cce          | the stars
        .word   0x01a2, 0x0801, 0x01a4, 0x0e33, 0x01a6, 0x0fbb      | balls 0 and 1, and so on
        .word   0x01aa, 0x0850, 0x01ac, 0x0ea2, 0x01ae, 0x0ffb
        .word   0x01b2, 0x0064, 0x01b4, 0x01c8, 0x01b6, 0x0bfd
        .word   0x01ba, 0x0619, 0x01bc, 0x0b4e, 0x01be, 0x0fcf
        .word   0x0180, 0x0002
sky:
        .set    step, 0
        .rept   STEPS
        .set    left, STEPS - 1 - step
        .if     FIRST_LINE + 2 * step == 256
        .word   0xffdf, 0xfffe
        .endif
        .word   ((FIRST_LINE + 2 * step) & 0xff) * 256 + 1, 0xfffe
        .if     step < HORIZON
        .word   0x0180, step * step * 15 / 7569 * 256 + step * step * step * 8 / 658503 * 16 + 2 + step * 6 / 87
        .else
        .word   0x0180, left * 8 / 40 * 256 + left * 4 / 40 * 16 + 3 + left * 5 / 40
        .endif
        .set    step, step + 1
        .endr
        .word   0xffff, 0xfffe          | the end of the list

        .bss
        .even
moment: .skip   2
colours:
        .skip   2 * STEPS
balls:  .skip   BALLS * BALL_BYTES
plane:  .skip   256 * ROW_BYTES
