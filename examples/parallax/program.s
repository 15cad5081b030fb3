| A walk past a forest: at each vertical blanking the layers move on, each by its own speed.
|
| The program draws nothing. For each layer it works out the word at which its rows begin and by how many pixels they are shifted,
| and writes both into the Copper list. make.py makes the list, the layers and the tables.

        .equ    COP1LC, 0x80
        .equ    COPJMP1, 0x88
        .equ    DMACON, 0x96
        .equ    INTENA, 0x9a
        .equ    INTREQ, 0x9c
        .equ    VERTB, 0x0020
        .equ    STACK, 0x1000           | below the list
        .equ    PERIOD, 384             | pixels of a layer, 24 words

        .text
        .long   STACK
        .long   start
        .org    4*27
        .long   blanking                | the interrupts of level 3
        .org    0x100

start:  lea     0xdff000,%a5
        bsr.s   scroll
        move.l  #LIST,COP1LC(%a5)
        move.w  %d0,COPJMP1(%a5)
        move.w  #0x83a0,DMACON(%a5)     | bitplanes, Copper and sprites
        move.w  #VERTB,INTREQ(%a5)
        move.w  #0xc000+VERTB,INTENA(%a5)
wait:   stop    #0x2000
        bra.s   wait

blanking:
        move.w  #VERTB,INTREQ(%a5)
        bsr.s   scroll
        rte

| Moves each layer on, and writes the pointers of its three planes, and then the scrolls of each change, into the list.

scroll: lea     strips(%pc),%a0
        lea     shifts(%pc),%a1
        moveq   #STRIPS-1,%d7
1:      move.l  (%a0)+,%d0              | the place of the layer
        move.l  (%a0)+,%d1              | from plane to plane
        movea.l (%a0)+,%a2              | the first pointer in the list
        move.w  (%a0)+,%d2              | quarters of a pixel a frame
        add.w   (%a0),%d2
        cmpi.w  #4*PERIOD,%d2
        bcs.s   2f
        subi.w  #4*PERIOD,%d2
2:      move.w  %d2,(%a0)+
        lsr.w   #2,%d2                  | pixels: a shift to the right by 0 to 15, from the next word on
        move.w  %d2,%d3
        neg.w   %d3
        andi.w  #15,%d3
        move.w  %d3,(%a1)+
        add.w   %d3,%d2
        lsr.w   #4,%d2
        add.w   %d2,%d2
        ext.l   %d2
        add.l   %d2,%d0
        moveq   #3-1,%d6
3:      move.w  %d0,4(%a2)
        swap    %d0
        move.w  %d0,(%a2)
        swap    %d0
        add.l   %d1,%d0
        addq.l  #8,%a2
        dbf     %d6,3b
        dbf     %d7,1b

        lea     shifts(%pc),%a1
        moveq   #STRIPS-2,%d7           | two layers begin in row 0
4:      movea.l (%a0)+,%a2
        move.w  (%a0)+,%d0
        move.w  (%a0)+,%d1
        move.w  (%a1,%d1.w),%d1
        lsl.w   #4,%d1
        or.w    (%a1,%d0.w),%d1
        move.w  %d1,(%a2)
        dbf     %d7,4b
        rts

shifts: .skip   2*STRIPS

        .include "tables"
