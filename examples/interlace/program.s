| Two fields of one picture: at each vertical blanking the program looks which field begins, long or short, and starts the Copper
| list that shows the rows of that field. All else is done by the lists, which make.py makes.

        .equ    VPOSR, 0x04
        .equ    COP1LC, 0x80
        .equ    COPJMP1, 0x88
        .equ    DMACON, 0x96
        .equ    INTENA, 0x9a
        .equ    INTREQ, 0x9c
        .equ    VERTB, 0x0020

        .text
        .long   STACK
        .long   start
        .org    4*27
        .long   blanking                | the interrupts of level 3
        .org    0x100

start:  lea     0xdff000,%a5
        bsr.s   field
        move.w  #0x8380,DMACON(%a5)     | bitplanes and Copper
        move.w  #VERTB,INTREQ(%a5)
        move.w  #0xc000+VERTB,INTENA(%a5)
wait:   stop    #0x2000
        bra.s   wait

blanking:
        move.w  #VERTB,INTREQ(%a5)
        bsr.s   field
        rte

field:  move.l  #LONG_LIST,%d0
        tst.w   VPOSR(%a5)              | bit 15 is LOF
        bmi.s   1f
        move.l  #SHORT_LIST,%d0
1:      move.l  %d0,COP1LC(%a5)
        move.w  %d0,COPJMP1(%a5)
        rts
