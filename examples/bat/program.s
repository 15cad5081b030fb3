| A game of a bat, a ball and bricks. Sprites 0 and 1 are the ball and its shadow, sprites 2 and 3 the bat. CLXDAT decides what has
| met in a field: the ball and the bat, or the ball and something solid, which is what plane 4 shows (see CLXCON). The program asks
| memory which brick it was only after CLXDAT has said that there was something.
|
| Places in the picture are pixels from its left upper corner; those of the ball and its speeds are sixteenths of a pixel.
| make.py draws the picture, the sprites and the Copper list, and gives the places.

        .equ    CLXDAT, 0x0e
        .equ    JOY1DAT, 0x0c
        .equ    COP1LC, 0x80
        .equ    COPJMP1, 0x88
        .equ    DMACON, 0x96
        .equ    CLXCON, 0x98
        .equ    INTENA, 0x9a
        .equ    INTREQ, 0x9c
        .equ    VERTB, 0x0020
        .equ    CIAA_PRA, 0xbfe001      | bit 7 is 0 while the fire button of port 1 is down

        .equ    STACK, LIST
        .equ    PLANE1, SCREEN
        .equ    PLANE2, PLANE1+PLANE_BYTES
        .equ    PLANE3, PLANE2+PLANE_BYTES      | shadows
        .equ    PLANE4, PLANE3+PLANE_BYTES      | what is solid
        .equ    CLEAN2, CLEAN1+CLEAN_BYTES      | planes 1 and 2 behind the bricks

        .equ    BALL_MET_SOLID, 5       | bits of CLXDAT: pair 0 and playfield 2, pair 0 and pair 1
        .equ    BALL_MET_BAT, 9
        .equ    BAT_STEP, 5
        .equ    BAT_WIDTH, 32
        .equ    UP, 16*8                | the ball's speed: so much up or down a field

        .text
        .long   STACK
        .long   start
        .org    4*27
        .long   blanking                | the interrupts of level 3
        .org    0x100

start:  lea     0xdff000,%a5
        bsr     hold
        bsr     place
        bsr     digits
        move.w  #0x2208,CLXCON(%a5)     | playfield 2 is where plane 4 shows 1; the bat has sprite 3, the ball not sprite 1
        move.l  #LIST,COP1LC(%a5)
        move.w  %d0,COPJMP1(%a5)
        move.w  #0x83a0,DMACON(%a5)     | bitplanes, Copper and sprites
        move.w  CLXDAT(%a5),%d0
        move.w  #VERTB,INTREQ(%a5)
        move.w  #0xc000+VERTB,INTENA(%a5)
wait:   stop    #0x2000
        bra.s   wait

blanking:
        move.w  #VERTB,INTREQ(%a5)
        move.w  CLXDAT(%a5),%d7         | what has met in the field that is done
        bsr     bat
        lea     struck,%a4              | the bricks that the ball strikes are noted here
        tst.w   held
        beq.s   1f
        bsr     hold
        btst    #7,CIAA_PRA
        bne.s   2f
        clr.w   held
        bra.s   2f
1:      bsr     bounce
        bsr     fly
2:      bsr     place
        lea     struck,%a3
3:      cmpa.l  %a4,%a3
        beq.s   4f
        move.w  (%a3)+,%d0
        move.w  (%a3)+,%d1
        movem.l %a3-%a4,-(%sp)
        bsr     remove
        movem.l (%sp)+,%a3-%a4
        bra.s   3b
4:      bsr     digits
        rte

| The bat by the joystick of port 1

bat:    move.w  JOY1DAT(%a5),%d0
        move.w  bat_x,%d1
        btst    #9,%d0
        beq.s   1f
        subq.w  #BAT_STEP,%d1           | to the left, to the wall
        cmpi.w  #WALL,%d1
        bge.s   1f
        move.w  #WALL,%d1
1:      btst    #1,%d0
        beq.s   2f
        addq.w  #BAT_STEP,%d1
        cmpi.w  #RIGHT_WALL-BAT_WIDTH,%d1
        ble.s   2f
        move.w  #RIGHT_WALL-BAT_WIDTH,%d1
2:      move.w  %d1,bat_x
        rts

| The ball on the bat, before fire is pressed

hold:   move.w  bat_x,%d0
        addi.w  #BAT_WIDTH/2-BALL/2+4,%d0
        lsl.w   #4,%d0
        move.w  %d0,ball_x
        move.w  #16*(BAT_ROW-BALL),ball_y
        move.w  #-UP,speed_y
        move.w  #28,speed_x
        rts

| What the ball has met turns it round

bounce: btst    #BALL_MET_BAT,%d7
        beq.s   1f
        tst.w   speed_y
        bmi.s   1f
        move.w  ball_x,%d0              | up, and aside by where it met the bat
        lsr.w   #4,%d0
        addi.w  #BALL/2-BAT_WIDTH/2,%d0
        sub.w   bat_x,%d0
        muls    #5,%d0
        move.w  %d0,speed_x
        move.w  #-UP,speed_y
1:      btst    #BALL_MET_SOLID,%d7
        bne.s   2f
        rts
2:      lea     sides(%pc),%a2
        moveq   #8-1,%d6                | its four sides, and then its corners, until one was met
3:      bsr.s   side
        dbne    %d6,3b
        rts

| A side of the ball, at %a2: across and down from its corner, which speed it turns round, and the sign that this speed has where
| the ball goes to that side. Where the side is in something solid the speed is turned, a brick there is noted, and Z is clear.

side:   moveq   #0,%d5
        move.w  ball_x,%d0
        lsr.w   #4,%d0
        add.w   (%a2)+,%d0
        move.w  ball_y,%d1
        lsr.w   #4,%d1
        add.w   (%a2)+,%d1
        movea.w (%a2)+,%a0
        move.w  (%a2)+,%d2
        move.w  %d1,%d3
        mulu    #ROW_BYTES,%d3
        move.w  %d0,%d4
        lsr.w   #3,%d4
        add.w   %d4,%d3
        lea     PLANE4,%a1
        adda.w  %d3,%a1
        move.w  %d0,%d4
        not.w   %d4
        btst    %d4,(%a1)
        beq.s   3f
        move.w  (%a0),%d3
        eor.w   %d2,%d3
        bmi.s   3f                      | the ball goes away from it already
        neg.w   (%a0)
        moveq   #1,%d5
        subi.w  #WALL,%d0               | the brick there, if it is one
        bmi.s   3f
        lsr.w   #5,%d0
        subi.w  #BRICK_ROW,%d1
        bmi.s   3f
        ext.l   %d1
        divu    #BRICK_ROWS,%d1
        cmpi.w  #COLUMNS,%d0
        bcc.s   3f
        cmpi.w  #BRICK_LINES,%d1
        bcc.s   3f
        move.w  %d0,(%a4)+
        move.w  %d1,(%a4)+
3:      tst.w   %d5
        rts

sides:  .word   BALL/2, 0, speed_y, -1          | above, below, left, right
        .word   BALL/2, BALL-1, speed_y, 1
        .word   0, BALL/2, speed_x, -1
        .word   BALL-1, BALL/2, speed_x, 1
        .word   2, 2, speed_y, -1               | the corners
        .word   BALL-3, 2, speed_y, -1
        .word   2, BALL-3, speed_y, 1
        .word   BALL-3, BALL-3, speed_y, 1

| The ball moves on; below the picture it is lost, and lies on the bat again

fly:    move.w  speed_x,%d0
        add.w   %d0,ball_x
        move.w  speed_y,%d0
        add.w   %d0,ball_y
        cmpi.w  #16*ROWS,ball_y
        blt.s   1f
        move.w  #1,held
        bsr     hold
1:      rts

| The control words of the four sprites

place:  move.w  ball_x,%d0
        lsr.w   #4,%d0
        move.w  ball_y,%d1
        lsr.w   #4,%d1
        moveq   #BALL,%d2
        lea     SPRITES,%a0
        bsr.s   control
        addq.w  #SHADE_X,%d0
        addq.w  #SHADE_Y,%d1
        bsr.s   control
        move.w  bat_x,%d0
        move.w  #BAT_ROW,%d1
        moveq   #BAT_ROWS,%d2
        bsr.s   control
        addi.w  #16,%d0

| Those of a sprite at %a0, which is moved on to the next: column %d0, row %d1, %d2 rows

control: move.w %d1,%d3
        addi.w  #26,%d3                 | its first line,
        move.w  %d3,%d4
        add.w   %d2,%d4                 | the line behind its last,
        move.w  %d0,%d5
        addi.w  #LEFT,%d5               | its position
        move.b  %d3,(%a0)
        move.b  %d4,2(%a0)
        lsr.w   #8,%d3
        lsl.w   #2,%d3
        lsr.w   #8,%d4
        add.w   %d4,%d4
        or.w    %d4,%d3                 | the ninth bits of the lines, and the last of the position
        lsr.w   #1,%d5
        bcc.s   1f
        addq.w  #1,%d3
1:      move.b  %d5,1(%a0)
        move.b  %d3,3(%a0)
        lea     SPRITE_BYTES(%a0),%a0
        rts

| Takes away the brick in column %d0 of row %d1, if it is still there: what is behind it, and the shadows of those around

remove: move.w  %d1,%d2
        mulu    #GRID_ROW,%d2
        add.w   %d0,%d2
        lea     grid+GRID_ROW+1,%a0
        adda.w  %d2,%a0
        tst.b   (%a0)
        bne.s   1f
        rts
1:      clr.b   (%a0)
        addi.w  #10,score
        move.w  %d1,%d3
        mulu    #BRICK_ROWS*ROW_BYTES,%d3
        lsl.w   #2,%d0
        add.w   %d0,%d3
        addq.w  #WALL/8,%d3
        lea     CLEAN1,%a1
        adda.w  %d3,%a1
        lea     PLANE1+BRICK_ROW*ROW_BYTES,%a2
        adda.w  %d3,%a2
        move.w  #CLEAN_BYTES,%d4
        move.w  #PLANE_BYTES,%d5
        move.l  #PLANE4-PLANE1,%d6
        moveq   #BRICK_ROWS-1,%d2
2:      move.l  (%a1),(%a2)
        move.l  (%a1,%d4.w),(%a2,%d5.w)
        clr.l   (%a2,%d6.l)
        lea     ROW_BYTES(%a1),%a1
        lea     ROW_BYTES(%a2),%a2
        dbf     %d2,2b
        lea     PLANE3+BRICK_ROW*ROW_BYTES,%a2
        adda.w  %d3,%a2
        bsr.s   shade                   | its own place, those right of it, below it, and right of that
        addq.l  #1,%a0
        addq.l  #4,%a2
        bsr.s   shade
        lea     GRID_ROW-1(%a0),%a0
        lea     BRICK_ROWS*ROW_BYTES-4(%a2),%a2
        bsr.s   shade
        addq.l  #1,%a0
        addq.l  #4,%a2

| The shadows in a place of the grid, where it has no brick: at %a0 in the grid, at %a2 in plane 3

shade:  tst.b   (%a0)
        bne.s   5f
        moveq   #0,%d0                  | in the upper rows those of the bricks above and left above,
        tst.b   -GRID_ROW(%a0)
        beq.s   1f
        move.l  #0xffffffff>>SHADE_X,%d0
1:      tst.b   -GRID_ROW-1(%a0)
        beq.s   2f
        ori.l   #~(0xffffffff>>SHADE_X),%d0
2:      moveq   #0,%d1                  | in the others that of the brick to the left
        tst.b   -1(%a0)
        beq.s   3f
        move.l  #~(0xffffffff>>SHADE_X),%d1
3:      movea.l %a2,%a1
        moveq   #BRICK_ROWS-1,%d2
4:      move.l  %d0,(%a1)
        cmpi.w  #BRICK_ROWS-SHADE_Y,%d2
        bne.s   6f
        move.l  %d1,%d0
6:      lea     ROW_BYTES(%a1),%a1
        dbf     %d2,4b
5:      rts

| The score, where it has changed: six digits in all four planes

digits: move.w  score,%d0
        cmp.w   shown,%d0
        beq.s   3f
        move.w  %d0,shown
        lea     PLANE1+SCORE_AT+6,%a0
        moveq   #6-1,%d7
1:      andi.l  #0xffff,%d0
        divu    #10,%d0
        move.l  %d0,%d1
        swap    %d1
        lsl.w   #3,%d1
        lea     FONT,%a1
        adda.w  %d1,%a1
        subq.l  #1,%a0
        movea.l %a0,%a2
        moveq   #8-1,%d6
2:      move.b  (%a1)+,%d2
        movea.l %a2,%a3
        move.b  %d2,(%a3)
        adda.l  #PLANE_BYTES,%a3
        move.b  %d2,(%a3)
        adda.l  #PLANE_BYTES,%a3
        move.b  %d2,(%a3)
        adda.l  #PLANE_BYTES,%a3
        move.b  %d2,(%a3)
        lea     ROW_BYTES(%a2),%a2
        dbf     %d6,2b
        dbf     %d7,1b
3:      rts

        .balign 2
ball_x: .word   0
ball_y: .word   0
speed_x: .word  0
speed_y: .word  0
bat_x:  .word   BAT_START
held:   .word   1
score:  .word   SCORE_START
shown:  .word   0xffff
struck: .skip   32

| A byte for each place, 1 where there is a brick, with one more place on each side: the wall is as bricks

grid:   .include "grid"
