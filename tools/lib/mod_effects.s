| The effects of the player, which mod_player.s includes: a voice is at %a2.

| Effects of a row's beginning, with the parameter %d2

set_offset:
        tst.w   %d2
        beq.s   1f
        move.w  %d2,OFFSET(%a2)
1:      tst.w   BEGINS(%a2)
        beq.s   done
        move.w  OFFSET(%a2),%d0
        lsl.w   #7,%d0                  | words
        cmp.w   BEGIN_LENGTH(%a2),%d0
        bhs.s   2f
        sub.w   %d0,BEGIN_LENGTH(%a2)
        add.l   %d0,%d0
        add.l   %d0,BEGIN_START(%a2)
        rts
2:      move.w  #1,BEGIN_LENGTH(%a2)
        rts

jump:   subq.w  #1,%d2
        move.w  %d2,position
        clr.w   break_row
        move.w  #1,jumps
        rts

break:  move.w  %d2,%d0                 | the row is two decimal digits
        lsr.w   #4,%d0
        mulu    #10,%d0
        andi.w  #15,%d2
        add.w   %d2,%d0
        cmpi.w  #ROWS,%d0
        blo.s   1f
        moveq   #0,%d0
1:      move.w  %d0,break_row
        move.w  #1,jumps
        rts

set_volume:
        cmpi.w  #FULL,%d2
        bls.s   1f
        moveq   #FULL,%d2
1:      move.w  %d2,VOLUME(%a2)
        move.w  %d2,SOUND_VOLUME(%a2)
        rts

set_speed:
        tst.w   %d2
        beq.s   2f
        cmpi.w  #FIRST_TEMPO,%d2
        bhs.s   1f
        move.w  %d2,speed
        rts
1:      move.w  %d2,%d0
        bra     set_tempo
2:      move.w  #1,stopped
        rts

| Effect E: the parameter's first digit says which, the second %d2 is its own parameter

extended:
        move.w  %d2,%d0
        andi.w  #15,%d2
        lsr.w   #4,%d0
        add.w   %d0,%d0
        move.w  extended_effects(%pc,%d0.w),%d0
        jmp     extended_effects(%pc,%d0.w)

extended_effects:
        .word   done-extended_effects, fine_up-extended_effects, fine_down-extended_effects, set_glissando-extended_effects
        .word   vibrato_form-extended_effects, set_finetune-extended_effects, pattern_loop-extended_effects, tremolo_form-extended_effects
        .word   done-extended_effects, again-extended_effects, fine_louder-extended_effects, fine_softer-extended_effects
        .word   cut-extended_effects, delayed-extended_effects, pattern_delay-extended_effects, done-extended_effects

fine_up: tst.w  counter
        bne     done
        bra     period_up

fine_down:
        tst.w   counter
        bne     done
        bra     period_down

set_glissando:
        move.w  %d2,GLISSANDO(%a2)
        rts

vibrato_form:
        move.w  %d2,VIBRATO+FORM(%a2)
        rts

tremolo_form:
        move.w  %d2,TREMOLO+FORM(%a2)
        rts

set_finetune:
        move.w  %d2,%d0
        andi.w  #15,%d0
        move.w  %d0,FINETUNE(%a2)
        rts

pattern_loop:
        tst.w   new_row
        beq.s   2f
        tst.w   %d2
        beq.s   3f
        tst.w   TIMES(%a2)
        beq.s   1f
        subq.w  #1,TIMES(%a2)
        bne.s   4f
        rts
1:      move.w  %d2,TIMES(%a2)
4:      move.w  FIRST_ROW(%a2),loop_row
        move.w  #1,loops
2:      rts
3:      move.w  row,FIRST_ROW(%a2)
        rts

again:  tst.w   %d2
        beq     done
        moveq   #0,%d0
        move.w  counter,%d0
        bne.s   1f
        tst.b   CELL_NOTE(%a2)
        bne     done
1:      divu    %d2,%d0
        swap    %d0
        tst.w   %d0
        beq     begin_sample
        rts

fine_louder:
        tst.w   counter
        bne     done
        bra     louder

fine_softer:
        tst.w   counter
        bne     done
        bra     softer

cut:    cmp.w   counter,%d2
        bne     done
        clr.w   VOLUME(%a2)
        clr.w   SOUND_VOLUME(%a2)
        rts

delayed:
        tst.w   %d2
        beq     done
        cmp.w   counter,%d2
        bne     done
        tst.b   CELL_NOTE(%a2)
        beq     done
        bsr     begin_note
        bra     sound_plainly

pattern_delay:
        tst.w   new_row
        beq     done
        addq.w  #1,%d2
        move.w  %d2,delay
        rts

| The row goes on: each voice by its effect

effects:
        lea     voices,%a2
        moveq   #4-1,%d7
1:      bsr.s   effect
        lea     VOICE(%a2),%a2
        dbf     %d7,1b
        rts

effect: bsr     sound_plainly
        moveq   #0,%d2
        move.b  CELL_PARAMETER(%a2),%d2
        moveq   #0,%d0
        move.b  CELL_EFFECT(%a2),%d0
        add.w   %d0,%d0
        move.w  tick_effects(%pc,%d0.w),%d0
        jmp     tick_effects(%pc,%d0.w)

tick_effects:
        .word   arpeggio-tick_effects, period_up-tick_effects, period_down-tick_effects, slide-tick_effects
        .word   vibrato-tick_effects, slide_and_volume-tick_effects, vibrato_and_volume-tick_effects, tremolo-tick_effects
        .word   none-tick_effects, none-tick_effects, volume_slide-tick_effects, none-tick_effects
        .word   none-tick_effects, none-tick_effects, extended_tick-tick_effects, none-tick_effects

extended_tick:
        bra     extended
none:   rts

| The three notes of a chord in turn: this one, and those so many half tones above it as the two digits say

arpeggio:
        tst.w   %d2
        beq.s   none
        moveq   #0,%d0
        move.w  counter,%d0
        divu    #3,%d0
        swap    %d0
        tst.w   %d0
        beq.s   none
        cmpi.w  #1,%d0
        bne.s   1f
        lsr.w   #4,%d2
1:      andi.w  #15,%d2
        bsr     nearest
        add.w   %d2,%d1
        cmpi.w  #NOTES-1,%d1
        bls.s   2f
        moveq   #NOTES-1,%d1
2:      add.w   %d1,%d1
        move.w  (%a1,%d1.w),SOUND_PERIOD(%a2)
        rts

| The number %d1 of the first note whose period is not above the voice's, among the periods %a1 of its finetune

nearest:
        bsr     finetuned
        movea.l %a1,%a0
        move.w  PERIOD(%a2),%d0
        moveq   #0,%d1
1:      cmp.w   (%a0)+,%d0
        bhs.s   2f
        addq.w  #1,%d1
        cmpi.w  #NOTES-1,%d1
        blo.s   1b
2:      rts

period_up:
        move.w  PERIOD(%a2),%d0
        sub.w   %d2,%d0
        cmpi.w  #LEAST_PERIOD,%d0
        bge.s   1f
        moveq   #LEAST_PERIOD,%d0
1:      move.w  %d0,PERIOD(%a2)
        move.w  %d0,SOUND_PERIOD(%a2)
        rts

period_down:
        move.w  PERIOD(%a2),%d0
        add.w   %d2,%d0
        cmpi.w  #GREATEST_PERIOD,%d0
        ble.s   1b
        move.w  #GREATEST_PERIOD,%d0
        bra.s   1b

| Effect 3: the period goes to the target, and sounds as the nearest note where the voice has a glissando

slide:  tst.w   %d2
        beq.s   slide_on
        move.w  %d2,SLIDE(%a2)
slide_on:
        move.w  TARGET(%a2),%d1
        beq     none
        move.w  PERIOD(%a2),%d0
        cmp.w   %d1,%d0
        bhi.s   1f
        add.w   SLIDE(%a2),%d0
        cmp.w   %d1,%d0
        blt.s   3f
        bra.s   2f
1:      sub.w   SLIDE(%a2),%d0
        cmp.w   %d1,%d0
        bgt.s   3f
2:      move.w  %d1,%d0
        clr.w   TARGET(%a2)
3:      move.w  %d0,PERIOD(%a2)
        move.w  %d0,SOUND_PERIOD(%a2)
        tst.w   GLISSANDO(%a2)
        beq.s   4f
        bsr     nearest
        add.w   %d1,%d1
        move.w  (%a1,%d1.w),SOUND_PERIOD(%a2)
4:      rts

slide_and_volume:
        move.w  %d2,-(%sp)
        bsr     slide_on
        move.w  (%sp)+,%d2
        bra     volume_slide

vibrato: lea    VIBRATO(%a2),%a0
        bsr     set_wave
vibrato_on:
        lea     VIBRATO(%a2),%a0
        bsr     wave
        lsr.w   #7,%d0
        tst.w   %d1
        beq.s   1f
        neg.w   %d0
1:      add.w   %d0,SOUND_PERIOD(%a2)
        rts

vibrato_and_volume:
        move.w  %d2,-(%sp)
        bsr.s   vibrato_on
        move.w  (%sp)+,%d2

volume_slide:
        move.w  %d2,%d0
        lsr.w   #4,%d0
        beq.s   1f
        move.w  %d0,%d2
        bra.s   louder
1:      andi.w  #15,%d2
softer: move.w  VOLUME(%a2),%d0
        sub.w   %d2,%d0
        bra.s   keep_volume
louder: move.w  VOLUME(%a2),%d0
        add.w   %d2,%d0
keep_volume:
        bsr     limited
        move.w  %d0,VOLUME(%a2)
        move.w  %d0,SOUND_VOLUME(%a2)
        rts

limited: bpl.s  1f
        moveq   #0,%d0
1:      cmpi.w  #FULL,%d0
        ble.s   2f
        moveq   #FULL,%d0
2:      rts

tremolo: lea    TREMOLO(%a2),%a0
        bsr     set_wave
        bsr     wave
        lsr.w   #6,%d0
        tst.w   %d1
        beq.s   1f
        neg.w   %d0
1:      add.w   VOLUME(%a2),%d0
        bsr     limited
        move.w  %d0,SOUND_VOLUME(%a2)
        rts

| The wave %a0 has the speed and the depth of the parameter's digits, where these are not 0

set_wave:
        move.w  %d2,%d0
        lsr.w   #4,%d0
        beq.s   1f
        move.w  %d0,SPEED(%a0)
1:      andi.w  #15,%d2
        beq.s   2f
        move.w  %d2,DEPTH(%a0)
2:      rts

| How high the wave %a0 is, times its depth: %d0, and whether that is below 0, %d1; and the wave goes on

wave:   move.w  PLACE(%a0),%d1
        move.w  %d1,%d2
        andi.w  #31,%d2
        lea     sine,%a1
        moveq   #0,%d0
        move.b  (%a1,%d2.w),%d0
        lsl.w   #3,%d2                  | a ramp
        move.w  FORM(%a0),%d3
        andi.w  #3,%d3
        beq.s   3f
        cmpi.w  #1,%d3
        beq.s   1f
        move.w  #255,%d0
        bra.s   3f
1:      move.w  %d2,%d0
        cmpi.w  #32,%d1
        blo.s   3f
        move.w  #255,%d0
        sub.w   %d2,%d0
3:      mulu    DEPTH(%a0),%d0
        move.w  %d1,%d2
        add.w   SPEED(%a0),%d2
        andi.w  #63,%d2
        move.w  %d2,PLACE(%a0)
        andi.w  #32,%d1
        rts
