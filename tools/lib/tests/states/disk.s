| The boot block of a disk: it takes the machine over, and draws bars that move. The checksum is put in afterwards.
        .long   0x444f5300              | DOS0
        .long   0                       | checksum
        .long   880
boot:   lea     0xdff000,%a5
        move.w  #0x7fff,0x09a(%a5)      | no interrupts, no DMA
        move.w  #0x7fff,0x09c(%a5)
        move.w  #0x7fff,0x096(%a5)
        move.b  #0x7f,0xbfed01
        move.b  #0x7f,0xbfdd00
        lea     here(%pc),%a0
        move.l  #super,0x80             | into supervisor mode by TRAP 0
        lea     super(%pc),%a1
        move.l  %a1,0x80
        trap    #0
here:
super:  move.w  #0x2700,%sr
        lea     0x70000,%sp
        lea     start(%pc),%a0          | to 20000, where all is known
        lea     0x20000,%a1
        move.w  #(end-start)/2,%d0
copy:   move.w  (%a0)+,(%a1)+
        dbf     %d0,copy
        jmp     0x20000
start:  lea     level3(%pc),%a0
        move.l  %a0,0x6c
        moveq   #0,%d7
        lea     list(%pc),%a0
        move.l  %a0,0x080(%a5)
        move.w  #0,0x088(%a5)
        move.w  #0x8280,0x096(%a5)
        move.w  #0xc020,0x09a(%a5)
        move.w  #0x2000,%sr
loop:   addq.l  #1,%d6
        bra     loop
level3: addq.w  #1,%d7
        move.w  %d7,%d0
        and.w   #0x7f,%d0
        add.w   #60,%d0
        lsl.w   #8,%d0
        or.w    #1,%d0
        lea     bar(%pc),%a0
        move.w  %d0,(%a0)
        move.w  %d7,colour-bar(%a0)
        move.w  #0x0020,0x09c(%a5)
        rte
list:   .word   0x0180,0x0004
        .word   0x3001,0xfffe,0x0180,0x0048
bar:    .word   0x6001,0xfffe,0x0180
colour: .word   0x0f80
        .word   0xf001,0xfffe,0x0180,0x0080
        .word   0xffff,0xfffe
end:
