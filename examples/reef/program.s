| Fish that swim: at each vertical blanking the program moves each fish by its speed and writes its control words, which stand before
| its rows in the memory of its sprite. It also moves a quarter of the specks, which are one sprite that the Copper list puts
| elsewhere on each line. make.py draws all, and makes the lists and the tables.

        .equ    COP1LC, 0x80
        .equ    COPJMP1, 0x88
        .equ    DMACON, 0x96
        .equ    INTENA, 0x9a
        .equ    INTREQ, 0x9c
        .equ    VERTB, 0x0020
        .equ    FIRST, 76               | where a fish comes in, and where it leaves
        .equ    LAST, 460

        .text
        .long   LIST                    | the stack is below the list
        .long   start
        .org    4*27
        .long   blanking                | the interrupts of level 3
        .org    0x100

start:  lea     0xdff000,%a5
        bsr.s   swim
        move.l  #LIST,COP1LC(%a5)
        move.w  %d0,COPJMP1(%a5)
        move.w  #0x83a0,DMACON(%a5)     | bitplanes, Copper and sprites
        move.w  #VERTB,INTREQ(%a5)
        move.w  #0xc000+VERTB,INTENA(%a5)
wait:   stop    #0x2000
        bra.s   wait

blanking:
        move.w  #VERTB,INTREQ(%a5)
        bsr.s   swim
        bsr.s   drift
        rte

| Each fish: where its control words are, its position and its speed in quarters of a position

swim:   lea     fish,%a0
        move.w  #FISH-1,%d7
1:      movea.l (%a0)+,%a1
        move.w  (%a0)+,%d0
        add.w   (%a0),%d0
        cmpi.w  #4*LAST,%d0
        blt.s   2f
        subi.w  #4*(LAST-FIRST),%d0
2:      cmpi.w  #4*FIRST,%d0
        bge.s   3f
        addi.w  #4*(LAST-FIRST),%d0
3:      move.w  %d0,(%a0)+
        lsr.w   #2,%d0
        andi.b  #0xfe,3(%a1)
        lsr.w   #1,%d0
        bcc.s   4f
        addq.b  #1,3(%a1)
4:      move.b  %d0,1(%a1)
        dbf     %d7,1b
        rts

| The specks of each fourth line move by two positions

drift:  move.w  turn(%pc),%d0
        addq.w  #2,%d0
        andi.w  #6,%d0
        lea     turn(%pc),%a1
        move.w  %d0,(%a1)
        lea     specks,%a0
        adda.w  %d0,%a0
        moveq   #SPECKS/4-1,%d7
1:      movea.w (%a0),%a1
        subq.b  #1,1(%a1)
        addq.l  #8,%a0
        dbf     %d7,1b
        rts

turn:   .word   0

        .include "tables"
