| The player of tools/mod: a song of four voices, as the tool lays it out in chip memory. Timer A of CIA B makes its ticks. At a tick
| each voice reads its cell of the next row, or goes on with the effect of the one before; then the four channels get their periods and
| volumes, those that begin a sample get its address and length, and four bars of the Copper's list show how loud the voices are.
|
| tools/lib/mod_player.hex is this file with mod_effects.s assembled: `python3 tools/lib/mod_player.py` makes it again.

        .equ    VHPOSR, 0x06
        .equ    COP1LC, 0x80
        .equ    COPJMP1, 0x88
        .equ    DMACON, 0x96
        .equ    INTENA, 0x9a
        .equ    INTREQ, 0x9c
        .equ    EXTER, 0x2000

        .equ    AUD, 0xa0               | the registers of a channel, which are 16 bytes after those of the one before
        .equ    AUD_LC, 0
        .equ    AUD_LEN, 4
        .equ    AUD_PER, 6
        .equ    AUD_VOL, 8
        .equ    CHANNEL, 16

        .equ    CIAB, 0xbfd000
        .equ    TALO, 0x400
        .equ    TAHI, 0x500
        .equ    ICR, 0xd00
        .equ    CRA, 0xe00

        .equ    ROWS, 64                | of a pattern, each of four cells of four bytes
        .equ    ROW_BYTES, 16
        .equ    NOTES, 36               | of three octaves
        .equ    FIRST_TEMPO, 32         | a smaller parameter of effect F is a speed
        .equ    LEAST_PERIOD, 113       | where the slides 1 and 2 end
        .equ    GREATEST_PERIOD, 856
        .equ    FULL, 64                | the greatest volume

| A cell: note (1 to 36, 0 for none), sample (1 to 31, 0 for none), effect, parameter

| A voice: its cell; its sample, which is a row of the table of samples; and what its effects keep
        .equ    CELL_NOTE, 0
        .equ    CELL_SAMPLE, 1
        .equ    CELL_EFFECT, 2
        .equ    CELL_PARAMETER, 3
        .equ    START, 4                | the sample's address,
        .equ    LOOP, 8                 | that of its loop,
        .equ    LENGTH, 12              | the words of both,
        .equ    LOOP_LENGTH, 14
        .equ    VOLUME, 16              | its volume, which effects change,
        .equ    FINETUNE, 18            | and which row of periods its notes have
        .equ    PERIOD, 20
        .equ    TARGET, 22              | the period to which effect 3 slides, 0 for none,
        .equ    SLIDE, 24               | and by how much a tick
        .equ    OFFSET, 26              | the last parameter of effect 9
        .equ    VIBRATO, 28             | speed, depth, place and form of a wave
        .equ    TREMOLO, 36
        .equ    GLISSANDO, 44           | whether effect 3 goes by whole notes
        .equ    FIRST_ROW, 46           | the row that E60 has marked,
        .equ    TIMES, 48               | and how often E6 still goes back to it
        .equ    SOUND_PERIOD, 50        | what sounds in this tick
        .equ    SOUND_VOLUME, 52
        .equ    BEGINS, 54              | whether a sample begins, and where:
        .equ    BEGIN_START, 56
        .equ    BEGIN_LENGTH, 60
        .equ    METER, 62               | how high its bar is, 0 to 64
        .equ    VOICE, 64

        .equ    SPEED, 0                | of a wave
        .equ    DEPTH, 2
        .equ    PLACE, 4
        .equ    FORM, 6

        .text
        .long   0                       | the stack: filled in by the tool
        .long   start
        .org    4*30
        .long   interrupt               | of level 6
        .org    0x100

| What the tool fills in

samples: .long  0                       | 32 rows of 16 bytes, of which the first is silence
orders: .long   0                       | the number of a pattern for each position, a byte each
patterns: .long 0
list:   .long   0                       | the Copper's list, and the word of the first bar's first colour in it
bars:   .long   0
tempo_ticks: .long 0                    | the ticks of the timer in a tick of the player, times the tempo
positions: .word 0
position: .word 0                       | the first, and then the one that is played
restart: .word  0                       | the position after the last

start:  lea     0xdff000,%a5
        lea     CIAB,%a4
        move.l  list,COP1LC(%a5)
        move.w  %d0,COPJMP1(%a5)
        move.w  #0x8280,DMACON(%a5)     | the Copper
        lea     voices,%a2
        moveq   #4-1,%d7
1:      movea.l samples,%a1
        bsr     take_sample
        lea     VOICE(%a2),%a2
        dbf     %d7,1b
        move.w  #125,%d0
        bsr     set_tempo
        move.b  #0x81,ICR(%a4)
        move.b  #0x11,CRA(%a4)
        move.w  #0xc000+EXTER,INTENA(%a5)
wait:   stop    #0x2000
        bra.s   wait

interrupt:
        tst.b   ICR(%a4)
        move.w  #EXTER,INTREQ(%a5)
        bsr     tick
        bsr     sound
        bsr     show
        rte

| The tempo %d0: the timer has it from its next tick on

set_tempo:
        move.l  tempo_ticks,%d1
        divu    %d0,%d1
        move.b  %d1,TALO(%a4)
        lsr.w   #8,%d1
        move.b  %d1,TAHI(%a4)
        rts

| A tick: a row begins, or is repeated, or goes on

tick:   clr.w   new_row
        tst.w   stopped
        bne.s   silent
        addq.w  #1,counter
        move.w  counter,%d0
        cmp.w   speed,%d0
        blo     effects
        clr.w   counter
        tst.w   repeats
        bne.s   1f
        bsr.s   row_begins
        bra     next_row
1:      bsr     effects
        bra     next_row

silent: lea     voices,%a2              | after effect F00
        moveq   #4-1,%d7
1:      clr.w   SOUND_VOLUME(%a2)
        lea     VOICE(%a2),%a2
        dbf     %d7,1b
        rts

row_begins:
        move.w  #1,new_row
        movea.l orders,%a0
        move.w  position,%d0
        moveq   #0,%d1
        move.b  (%a0,%d0.w),%d1
        mulu    #ROWS*ROW_BYTES,%d1
        move.w  row,%d0
        lsl.w   #4,%d0
        movea.l patterns,%a0
        adda.l  %d1,%a0
        adda.w  %d0,%a0
        lea     voices,%a2
        moveq   #4-1,%d7
1:      move.l  (%a0)+,(%a2)
        move.l  %a0,-(%sp)
        bsr.s   cell
        movea.l (%sp)+,%a0
        lea     VOICE(%a2),%a2
        dbf     %d7,1b
        rts

| A cell: its sample, its note, and what its effect does where a row begins

cell:   moveq   #0,%d0
        move.b  CELL_SAMPLE(%a2),%d0
        beq.s   1f
        lsl.w   #4,%d0
        movea.l samples,%a1
        adda.w  %d0,%a1
        bsr     take_sample
1:      moveq   #0,%d2
        move.b  CELL_PARAMETER(%a2),%d2
        moveq   #0,%d0
        move.b  CELL_EFFECT(%a2),%d0
        tst.b   CELL_NOTE(%a2)
        beq.s   2f
        bsr.s   note
2:      bsr     sound_plainly
        moveq   #0,%d0
        move.b  CELL_EFFECT(%a2),%d0
        add.w   %d0,%d0
        move.w  row_effects(%pc,%d0.w),%d0
        jmp     row_effects(%pc,%d0.w)

row_effects:
        .word   done-row_effects, done-row_effects, done-row_effects, done-row_effects
        .word   done-row_effects, done-row_effects, done-row_effects, done-row_effects
        .word   done-row_effects, set_offset-row_effects, done-row_effects, jump-row_effects
        .word   set_volume-row_effects, break-row_effects, extended-row_effects, set_speed-row_effects

| The cell's note, with the effect %d0 and its parameter %d2: it is slid to, is delayed, or begins

note:   cmpi.b  #3,%d0
        beq.s   slide_to
        cmpi.b  #5,%d0
        beq.s   slide_to
        cmpi.b  #0xe,%d0
        bne.s   begin_note
        move.w  %d2,%d1
        lsr.w   #4,%d1
        cmpi.w  #5,%d1
        bne.s   1f
        bsr     set_finetune
1:      cmpi.w  #0xd,%d1
        bne.s   begin_note
        move.w  %d2,%d1
        andi.w  #15,%d1
        bne     done                    | effect ED begins it later
begin_note:
        bsr.s   note_period
        move.w  %d1,PERIOD(%a2)
        btst    #2,VIBRATO+FORM+1(%a2)
        bne.s   1f
        clr.w   VIBRATO+PLACE(%a2)
1:      btst    #2,TREMOLO+FORM+1(%a2)
        bne.s   begin_sample
        clr.w   TREMOLO+PLACE(%a2)
begin_sample:
        move.w  #1,BEGINS(%a2)
        move.l  START(%a2),BEGIN_START(%a2)
        move.w  LENGTH(%a2),BEGIN_LENGTH(%a2)
        rts

slide_to:
        bsr.s   note_period
        cmp.w   PERIOD(%a2),%d1
        bne.s   1f
        moveq   #0,%d1
1:      move.w  %d1,TARGET(%a2)
        rts

| The period %d1 of the cell's note

note_period:
        moveq   #0,%d1
        move.b  CELL_NOTE(%a2),%d1
        subq.w  #1,%d1
        add.w   %d1,%d1
        bsr.s   finetuned
        move.w  (%a1,%d1.w),%d1
        rts

| The 36 periods %a1 of the voice's finetune

finetuned:
        lea     periods,%a1
        move.w  FINETUNE(%a2),%d0
        mulu    #2*NOTES,%d0
        adda.w  %d0,%a1
        rts

| The voice has the sample of the row %a1

take_sample:
        move.l  (%a1)+,START(%a2)
        move.l  (%a1)+,LOOP(%a2)
        move.l  (%a1)+,LENGTH(%a2)
        move.l  (%a1)+,VOLUME(%a2)
        rts

sound_plainly:
        move.w  PERIOD(%a2),SOUND_PERIOD(%a2)
        move.w  VOLUME(%a2),SOUND_VOLUME(%a2)
done:   rts

        .include "mod_effects.s"

| The next row, unless this one is to be repeated

next_row:
        move.w  delay,%d0
        beq.s   1f
        move.w  %d0,repeats
        clr.w   delay
1:      tst.w   repeats
        beq.s   2f
        subq.w  #1,repeats
        bne.s   5f
2:      addq.w  #1,row
        tst.w   loops
        beq.s   3f
        clr.w   loops
        move.w  loop_row,row
3:      tst.w   jumps
        bne.s   4f
        cmpi.w  #ROWS,row
        blo.s   5f
4:      clr.w   jumps
        move.w  break_row,row
        clr.w   break_row
        addq.w  #1,position
        move.w  position,%d0
        cmp.w   positions,%d0
        blo.s   5f
        move.w  restart,position
5:      rts

| What sounds is written. A channel whose sample begins is off for some lines before, as a real one wants; what it plays after the
| sample is its loop, which all channels are given at each row.

sound:  lea     voices,%a2
        lea     AUD(%a5),%a3
        moveq   #0,%d5
        moveq   #1,%d4                  | the voice's bit of DMACON
1:      tst.w   BEGINS(%a2)
        beq.s   2f
        or.w    %d4,%d5
2:      lea     VOICE(%a2),%a2
        add.w   %d4,%d4
        cmpi.w  #16,%d4
        bne.s   1b
        tst.w   %d5
        beq.s   3f
        move.w  %d5,DMACON(%a5)
3:      lea     voices,%a2
        moveq   #4-1,%d7
4:      move.w  SOUND_PERIOD(%a2),AUD_PER(%a3)
        move.w  SOUND_VOLUME(%a2),AUD_VOL(%a3)
        tst.w   BEGINS(%a2)
        beq.s   5f
        move.l  BEGIN_START(%a2),AUD_LC(%a3)
        move.w  BEGIN_LENGTH(%a2),AUD_LEN(%a3)
5:      lea     VOICE(%a2),%a2
        lea     CHANNEL(%a3),%a3
        dbf     %d7,4b
        tst.w   %d5
        beq.s   6f
        moveq   #8,%d0
        bsr.s   wait_lines
        ori.w   #0x8200,%d5
        move.w  %d5,DMACON(%a5)
        moveq   #2,%d0
        bsr.s   wait_lines
        bra.s   give_loops
6:      tst.w   new_row
        bne.s   give_loops
        rts

give_loops:
        lea     voices,%a2
        lea     AUD(%a5),%a3
        moveq   #4-1,%d7
1:      move.l  LOOP(%a2),AUD_LC(%a3)
        move.w  LOOP_LENGTH(%a2),AUD_LEN(%a3)
        lea     VOICE(%a2),%a2
        lea     CHANNEL(%a3),%a3
        dbf     %d7,1b
        rts

| Waits for the start of the %d0-th line from here

wait_lines:
        move.b  VHPOSR(%a5),%d1
1:      cmp.b   VHPOSR(%a5),%d1
        beq.s   1b
        subq.w  #1,%d0
        bne.s   wait_lines
        rts

| The bars: a voice's is as high as it is loud where its sample begins, and falls by 2 a tick. It has 32 lines, lit as far from
| its middle as it is high.

show:   lea     voices,%a2
        movea.l bars,%a0
        lea     shades,%a1
        moveq   #4-1,%d7
1:      move.w  METER(%a2),%d0
        subq.w  #2,%d0
        bpl.s   2f
        moveq   #0,%d0
2:      tst.w   BEGINS(%a2)
        beq.s   3f
        clr.w   BEGINS(%a2)
        moveq   #FULL,%d0
3:      cmp.w   SOUND_VOLUME(%a2),%d0
        ble.s   4f
        move.w  SOUND_VOLUME(%a2),%d0
4:      move.w  %d0,METER(%a2)
        lea     32*8(%a0),%a3           | the bar's end
        moveq   #16-1,%d1               | how far a line is from the middle
5:      moveq   #0,%d2
        move.w  %d1,%d3
        lsl.w   #2,%d3
        cmp.w   %d0,%d3
        bge.s   6f
        move.w  %d1,%d3
        add.w   %d3,%d3
        move.w  (%a1,%d3.w),%d2
6:      move.w  %d2,(%a0)
        subq.l  #8,%a3
        move.w  %d2,(%a3)
        addq.l  #8,%a0
        dbf     %d1,5b
        lea     17*8(%a0),%a0           | a black line comes after the bar
        lea     2*16(%a1),%a1
        lea     VOICE(%a2),%a2
        dbf     %d7,1b
        rts

        .balign 2
counter: .word  5                       | the tick of the row,
speed:  .word   6                       | and how many it has
row:    .word   0
new_row: .word  0                       | whether this tick begins a row, for the first time
delay:  .word   0                       | how often effect EE has the row, and how often it is still to come
repeats: .word  0
jumps:  .word   0                       | whether the next row is of the next position, and which
break_row: .word 0
loops:  .word   0                       | whether the next row is that of E6, and which
loop_row: .word 0
stopped: .word  0
voices: .space  4*VOICE
shades: .space  4*2*16                  | the colours of the four bars, from the middle out: the tool's
periods: .space 16*2*NOTES              | the periods of the sixteen finetunes: the tool's
sine:   .space  32                      | half a wave: the tool's
        .balign 2
player_end:
