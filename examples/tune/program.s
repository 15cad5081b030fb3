| A player of four voices, and a town whose windows show how loud they are. At each vertical blanking it goes on by a frame: where a
| step of the song begins, each voice that has a note there begins it; each voice gets the volume, the wave and the period of this
| frame; then the windows' colours and the shifts of the water are written into the Copper list.
|
| make.py draws the town, makes song, notes, shapes and waves, and gives the places.

        .equ    COP1LC, 0x80
        .equ    COPJMP1, 0x88
        .equ    DMACON, 0x96
        .equ    INTENA, 0x9a
        .equ    INTREQ, 0x9c
        .equ    VERTB, 0x0020

        .equ    AUD, 0xa0               | the registers of a channel, which are 16 bytes behind those of the one before
        .equ    LC, 0
        .equ    LEN, 4
        .equ    PER, 6
        .equ    VOL, 8
        .equ    CHANNEL, 16

        .equ    SONG, 0                 | a voice: the next step of its song,
        .equ    SHAPE, 4                | the shape of its notes, which is a volume and a wave for each frame,
        .equ    PLACE, 8                | where in its shape the note is,
        .equ    NOTE, 12                | the note's three periods,
        .equ    TURN, 16                | which of them comes next: 0, 2 or 4,
        .equ    VOLUME, 18              | and how loud it is
        .equ    VOICE, 20

        .text
        .long   STACK
        .long   start
        .org    4*27
        .long   blanking                | the interrupts of level 3
        .org    0x100

start:  lea     0xdff000,%a5
        move.l  #LIST,COP1LC(%a5)
        move.w  %d0,COPJMP1(%a5)
        move.w  #0x8380,DMACON(%a5)     | bitplanes and Copper
        move.w  #0xc000+VERTB,INTENA(%a5)
wait:   stop    #0x2000
        bra.s   wait

blanking:
        move.w  #VERTB,INTREQ(%a5)
        moveq   #0,%d5                  | the channels that begin a note
        subq.w  #1,frames_left
        bne.s   1f
        move.w  #STEP_FRAMES,frames_left
        bsr.s   step
1:      bsr.s   sound
        ori.w   #0x8200,%d5
        move.w  %d5,DMACON(%a5)         | on
        bsr     windows
        bsr     water
        rte

| A step of the song: a voice begins the note that it has there, or goes on with the one before where that is 0

step:   lea     voices,%a2
        moveq   #1,%d4                  | the voice's bit of DMACON
1:      movea.l SONG(%a2),%a0
        moveq   #0,%d0
        move.b  (%a0)+,%d0
        move.l  %a0,SONG(%a2)
        tst.w   %d0
        beq.s   2f
        mulu    #6,%d0
        addi.l  #NOTES,%d0
        move.l  %d0,NOTE(%a2)
        clr.w   TURN(%a2)
        move.l  SHAPE(%a2),PLACE(%a2)
        or.w    %d4,%d5
2:      lea     VOICE(%a2),%a2
        add.w   %d4,%d4
        cmpi.w  #16,%d4
        bne.s   1b
        move.w  %d5,DMACON(%a5)         | off, so that a note begins with the first byte of its wave
        rts

| A frame of each voice: its channel gets wave, volume and period. The last frame of a shape goes on.

sound:  lea     voices,%a2
        lea     AUD(%a5),%a3
        moveq   #4-1,%d3
1:      movea.l PLACE(%a2),%a0
        moveq   #0,%d0
        moveq   #0,%d1
        move.b  (%a0)+,%d0
        move.b  (%a0)+,%d1
        tst.b   (%a0)
        bmi.s   2f
        move.l  %a0,PLACE(%a2)
2:      move.w  %d0,VOLUME(%a2)
        mulu    #WAVE_BYTES,%d1
        addi.l  #WAVES,%d1
        move.l  %d1,LC(%a3)
        move.w  #WAVE_BYTES/2,LEN(%a3)
        movea.l NOTE(%a2),%a0
        move.w  TURN(%a2),%d1
        move.w  (%a0,%d1.w),PER(%a3)
        move.w  %d0,VOL(%a3)
        addq.w  #2,%d1
        cmpi.w  #6,%d1
        bne.s   3f
        moveq   #0,%d1
3:      move.w  %d1,TURN(%a2)
        lea     VOICE(%a2),%a2
        lea     CHANNEL(%a3),%a3
        dbf     %d3,1b
        rts

| The windows of a voice's tower: a storey has one of five colours, by how far the volume goes beyond its floor, 4 to a storey. So
| has its image in the water, whose five colours stand behind the others.

windows: lea    voices,%a2
        lea     COLOURS,%a1
        moveq   #0,%d4
1:      move.w  VOLUME(%a2),%d0
        lea     GROUND_FLOOR,%a3
        lea     GROUND_FLOOR_IMAGE,%a4
        adda.w  %d4,%a3
        adda.w  %d4,%a4
        moveq   #STOREYS-1,%d3
2:      move.w  %d0,%d1
        bpl.s   3f
        moveq   #0,%d1
3:      cmpi.w  #4,%d1
        ble.s   4f
        moveq   #4,%d1
4:      add.w   %d1,%d1
        move.w  (%a1,%d1.w),(%a3)
        move.w  10(%a1,%d1.w),(%a4)
        lea     -STOREY_BYTES(%a3),%a3
        lea     IMAGE_BYTES(%a4),%a4
        subq.w  #4,%d0
        dbf     %d3,2b
        lea     20(%a1),%a1
        lea     VOICE(%a2),%a2
        addq.w  #4,%d4                  | the colour's MOVE behind that of the voice before
        cmpi.w  #16,%d4
        bne.s   1b
        rts

| The water: the rows' shifts go down by a row in each frame

water:  lea     SHIFTS,%a0
        move.w  phase,%d0
        adda.w  %d0,%a0
        subq.w  #2,%d0
        bpl.s   1f
        move.w  #2*(SHIFT_COUNT-1),%d0
1:      move.w  %d0,phase
        lea     FIRST_SHIFT,%a3
        moveq   #WATER_ROWS/4-1,%d3
2:      moveq   #4-1,%d2
3:      move.w  (%a0)+,(%a3)
        lea     WATER_ROW_BYTES(%a3),%a3
        dbf     %d2,3b
        lea     16(%a3),%a3             | over the four colours of a storey
        dbf     %d3,2b
        rts

        .balign 2
frames_left: .word 1
phase:  .word   0
voices: .long   SONGS, SHAPE0, silence, NOTES, 0
        .long   SONGS+SONG_STEPS, SHAPE1, silence, NOTES, 0
        .long   SONGS+2*SONG_STEPS, SHAPE2, silence, NOTES, 0
        .long   SONGS+3*SONG_STEPS, SHAPE3, silence, NOTES, 0
silence: .byte  0, 0, -1, 0
