| 140 instructions of all groups of the MC68000, and what each leaves.
|
| While the trace bit of SR is set, a trace exception follows each instruction. Its handler, like those of the other exceptions,
| appends a record of five words to the results: which handler (the address behind its branch), the low word of the stacked PC,
| the stacked SR, and D0. Before an address error's record stand the four words that its frame has more than the others.
| TRAP #0 ends a group: behind its record it leaves D1 to D6 and A0 to A2, and it writes a sum of all words so far to COLOR00.
|
| D7 is that running sum, A4 the first word that is not in it, A5 COLOR00, A6 the place of the next word. The script requests
| the interrupts SOFT and COPER while the processor stands in STOP.

        .equ    results, 0x2000
        .equ    user_stack, 0x1f00
        .equ    work, 0x1e00
        .equ    COLOR00, 0xdff180
        .equ    INTENA, 0xdff09a
        .equ    INTREQ, 0xdff09c
        .equ    SOFT, 0x0004
        .equ    COPER, 0x0010

        .text
        .long   results                 | the stack at reset, which ends where the results begin
        .long   start
        .long   0
        .long   odd                     | vector 3
        .long   illegal
        .long   zero
        .long   check
        .long   overflow
        .long   privilege
        .long   trace
        .long   line_a
        .long   line_f                  | vector 11
        .org    4*25
        .long   level_1
        .long   0
        .long   level_3
        .org    4*32
        .long   done                    | TRAP #0
        .long   rise                    | TRAP #1
        .org    4*47
        .long   trap_15

| The handlers

odd:    move.l  (%sp)+,(%a6)+           | what access it was, and the high word of its address
        move.l  (%sp)+,(%a6)+           | the low word, and the opcode
        bclr    #0,5(%sp)               | it goes on at an even address
        bsr.s   note
zero:   bsr.s   note
check:  bsr.s   note
overflow: bsr.s note
trace:  bsr.s   note
trap_15: bsr.s  note
level_1: move.w #SOFT,INTREQ
        bsr.s   note
level_3: move.w #COPER,INTREQ
        bsr.s   note
illegal: bsr.s  skip
privilege: bsr.s skip
line_a: bsr.s   skip
line_f: bsr.s   skip
rise:   ori.b   #0x20,(%sp)             | it goes on in supervisor mode
        bsr.s   note

skip:   addq.l  #2,6(%sp)               | it goes on behind the opcode
note:   move.w  2(%sp),(%a6)+
        addq.l  #4,%sp
        move.w  4(%sp),(%a6)+
        move.w  (%sp),(%a6)+
        move.l  %d0,(%a6)+
        rte

done:   move.w  #done+4,(%a6)+
        move.w  4(%sp),(%a6)+
        move.w  (%sp),(%a6)+
        move.l  %d0,(%a6)+
        movem.l %d1-%d6/%a0-%a2,(%a6)
        lea     36(%a6),%a6
sum:    rol.w   #1,%d7
        add.w   (%a4)+,%d7
        cmpa.l  %a6,%a4
        bne.s   sum
        move.w  %d7,(%a5)
        rte

data:   .word   0x1234, 0x8765, 0x4321, 0xfedc, 0x0f1e, 0x7f80, 0x8000, 0x0001

start:  lea     results.w,%a6
        movea.l %a6,%a4
        lea     COLOR00,%a5
        move    #0xa700,%sr             | each instruction is traced from here on

| 1: moves, and the modes of addresses

        moveq   #-5,%d1
        lea     data(%pc),%a0
        move.w  (%a0)+,%d0
        move.l  (%a0)+,%d0
        move.b  -(%a0),%d0
        move.w  6(%a0,%d1.w),%d0
        move.b  data+13(%pc,%d1.l),%d0
        move.l  data+6.w,%d0
        movea.w data+2.l,%a1
        lea     work+12.w,%a2
        move.l  %d0,-(%a2)
        move.w  %a1,-2(%a2)
        move.l  -4(%a2),(%a2)+
        move.b  data+3(%pc),9(%a2,%d1.w)
        trap    #0

| 2: immediate values, CCR and SR

        move.l  #0x7fff8000,%d0
        subi.w  #1,%d0
        addi.l  #0x8000,%d0
        addq.l  #1,%d0
        subq.w  #8,%d0
        ori.b   #5,%d0
        andi.w  #0x0ff0,%d0
        cmpi.l  #0x7fffffff,%d0
        eori.l  #0x5aa5fefc,work+4.l
        addq.w  #8,%a0
        ori     #0x1f,%ccr
        eori    #0x070e,%sr
        move    #0x0b,%ccr
        move    %sr,%d0
        trap    #0

| 3: sums, differences and comparisons

        move.l  #0x80007fff,%d2
        add.w   %d2,%d0
        add.b   data+3(%pc),%d0
        add.l   %d2,-(%a2)
        adda.w  %d1,%a0
        sub.l   %a2,%d0
        suba.l  (%a2)+,%a1
        cmp.w   %a1,%d0
        cmpa.w  #0x7f00,%a1
        cmpm.w  (%a2)+,(%a0)+
        addx.b  %d2,%d0
        subx.l  -(%a0),-(%a2)
        negx.w  %d0
        neg.b   1(%a2)
        clr.w   %d0
        tst.w   -(%a2)
        trap    #0

| 4: logic, bits, conditions and exchanges

        move.w  data+2.w,%d0
        ext.l   %d0
        and.w   data.w,%d0
        not.w   %d0
        ext.w   %d0
        or.b    %d0,(%a2)
        swap    %d0
        eor.l   %d2,%d0
        btst    %d0,#0x5a
        bchg    #37,%d0
        bclr    %d1,%d0
        bset    #12,(%a2)
        exg     %d0,%d1
        exg     %d0,%a1
        sge     %d3
        sls     1(%a2)
        tas     (%a2)
        trap    #0

| 5: shifts and rotations

        move.l  #0x40a5c3f1,%d0
        moveq   #38,%d4
        asl.l   #2,%d0
        roxl.w  #3,%d0
        roxr.b  %d1,%d0
        asr.w   #4,%d0
        rol.l   %d4,%d0
        ror.w   #5,%d0
        roxl.l  %d5,%d0                 | by 0
        lsl.b   #8,%d0
        lsr.l   %d4,%d0
        asl.w   work+8.w
        roxr.w  work+8.w
        trap    #0

| 6: decimal sums, multiplication and division

        lea     work+32.w,%a0
        move.w  #0x4258,(%a0)+
        move    #0x14,%ccr
        abcd    -(%a0),-(%a0)
        moveq   #0x47,%d0
        sbcd    %d4,%d0
        nbcd    %d0
        mulu    data+2(%pc),%d0
        muls    data+6.w,%d0
        divs    #-37,%d0                | overflow
        divs    #-300,%d0
        divu    data+10.w,%d0
        trap    #0

| 7: lists of registers, the stack, jumps and branches

        movem.w %d0-%d2/%a1,-(%a2)
        movem.w (%a2)+,%d3-%d5/%a0
        movem.l %d0/%d3/%a0/%a2,work+40.w
        movep.l %d0,1(%a2)
        movep.w 3(%a2),%d0
        link    %a0,#-8
        pea     2(%a2,%d4.w)
        move.l  (%sp)+,%d0
        unlk    %a0
        bsr.w   back
        jsr     flags(%pc)
        beq.w   over
        bvs.s   over
back:   rts
flags:  move.w  #0x0a,-(%sp)
        rtr
over:   moveq   #1,%d3
again:  dbpl    %d3,again
        dbf     %d3,again
        lea     there(%pc),%a0
        jmp     (%a0)
        clr.l   %d0                     | not reached
there:  trap    #0

| 8: exceptions

        trap    #15
        trapv
        chk     data.w,%d2
        chk     %d5,%d5
        chk     data.w,%d3
        divu    work+60.w,%d0
        illegal
        .word   0xa123
        .word   0xf456
        move.w  1(%a0),%d0              | a read at an odd address, and below a write and a jump
        lea     work+61.w,%a1
        move.l  %d0,-(%a1)
        jmp     odd_jump+1(%pc)
odd_jump: move  #2,%ccr
        trapv
        trap    #0

| 9: user mode

        lea     user_stack.w,%a0
        move    %a0,%usp
        move    #0x8000,%sr
        pea     (%a0)
        reset
        move    %a0,%usp
        rte
        trap    #1                      | back in supervisor mode
        move    %usp,%a1
        trap    #0

| 10: interrupts

        nop
        reset
        move.w  #0xc000+COPER+SOFT,INTENA
        move    #0xa000,%sr
        move.w  #0x8000+SOFT,INTREQ     | the interrupt begins before the handler of the trace exception
        move    #0x2100,%sr             | the last that is traced
        stop    #0x2100                 | COPER ends it, which is above the mask; SOFT is not
        andi    #0xf8ff,%sr             | SOFT, which was pending
        trap    #0
        bra.s   .
