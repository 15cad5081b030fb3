| A loader of one track. It has the disk's words stored from a sync on, a whole turn and a sector more, so that each sector is there
| whole wherever the turn began. Then it decodes a sector in each frame, by the number in the sector's header: 512 bytes, which are
| rows of a picture with the two colours of each.
|
| The bits of data are every second bit of a word, and data is told in two halves: the odd bits of all of it, then the even ones.
| make.py draws the picture, makes the track and the Copper list, and gives the places.

        .equ    INTREQR, 0x1e
        .equ    DSKPT, 0x20
        .equ    DSKLEN, 0x24
        .equ    DSKSYNC, 0x7e
        .equ    COP1LC, 0x80
        .equ    COPJMP1, 0x88
        .equ    DMACON, 0x96
        .equ    INTREQ, 0x9c
        .equ    ADKCON, 0x9e
        .equ    DSKBLK, 1               | bits of INTREQ
        .equ    VERTB, 5

        .equ    SYNC, 0x4489
        .equ    DATA_BITS, 0x55555555
        .equ    HEADER, 0               | a sector behind its sync: the header and the label of ten longs,
        .equ    HEADER_SUM, 40          | their sum,
        .equ    DATA_SUM, 48            | that of the data,
        .equ    DATA, 56                | the odd bits of the data,
        .equ    EVEN, 512               | and behind these the even ones

        .text
        .long   STACK
        .long   start
        .org    0x100

start:  lea     0xdff000,%a5
        move.l  #DATA_BITS,%d5
        move.l  #LIST,COP1LC(%a5)
        move.w  %d0,COPJMP1(%a5)
        move.w  #0x8390,DMACON(%a5)     | bitplanes, Copper and disk
        bsr.s   read
        lea     RAW,%a0
        moveq   #SECTORS-1,%d7
1:      bsr.s   frame
        bsr.s   find
        bsr.s   sector
        bsr     colours
        dbf     %d7,1b
done:   stop    #0x2700
        bra.s   done

| Reads the track, and waits until all is stored

read:   move.l  #RAW,DSKPT(%a5)
        move.w  #SYNC,DSKSYNC(%a5)
        move.w  #0x8400,ADKCON(%a5)     | WORDSYNC
        move.w  #1<<DSKBLK,INTREQ(%a5)
        move.w  #0x8000+RAW_WORDS,DSKLEN(%a5)
        move.w  #0x8000+RAW_WORDS,DSKLEN(%a5)
1:      btst    #DSKBLK,INTREQR+1(%a5)
        beq.s   1b
        move.w  #0,DSKLEN(%a5)
        rts

| Waits for the next frame

frame:  move.w  #1<<VERTB,INTREQ(%a5)
1:      btst    #VERTB,INTREQR+1(%a5)
        beq.s   1b
        rts

| Moves %a0 on behind the next sync

find:   cmpi.w  #SYNC,(%a0)+
        bne.s   find
1:      cmpi.w  #SYNC,(%a0)+
        beq.s   1b
        subq.l  #2,%a0
        rts

| Decodes the sector at %a0 to its place, where its two sums are right

sector: lea     HEADER(%a0),%a1
        moveq   #10-1,%d1
        bsr.s   sum
        lea     HEADER_SUM(%a0),%a1
        bsr.s   long
        cmp.l   %d0,%d2
        bne.s   2f
        lea     DATA(%a0),%a1
        move.w  #2*128-1,%d1
        bsr.s   sum
        lea     DATA_SUM(%a0),%a1
        bsr.s   long
        cmp.l   %d0,%d2
        bne.s   2f
        lea     HEADER(%a0),%a1
        bsr.s   long
        lsr.w   #8,%d0                  | its number
        mulu    #512,%d0
        lea     LOADED,%a2
        adda.l  %d0,%a2
        lea     DATA(%a0),%a1
        moveq   #128-1,%d1
1:      move.l  EVEN(%a1),%d2
        move.l  (%a1)+,%d0
        and.l   %d5,%d0
        and.l   %d5,%d2
        add.l   %d0,%d0
        or.l    %d2,%d0
        move.l  %d0,(%a2)+
        dbf     %d1,1b
2:      rts

| The sum of %d1 + 1 longs at %a1, as %d2: the exclusive or of their bits of data

sum:    moveq   #0,%d2
1:      move.l  (%a1)+,%d0
        eor.l   %d0,%d2
        dbf     %d1,1b
        and.l   %d5,%d2
        rts

| The long that is told at %a1, as %d0

long:   move.l  (%a1)+,%d0
        move.l  (%a1)+,%d1
        and.l   %d5,%d0
        and.l   %d5,%d1
        add.l   %d0,%d0
        or.l    %d1,%d0
        rts

| The two colours of each row, from what was loaded into the Copper list

colours: lea    LOADED,%a1
        lea     COLOURS,%a2
        moveq   #ROWS-1,%d1
1:      move.w  (%a1)+,(%a2)            | COLOR00
        move.w  (%a1)+,4(%a2)           | COLOR01
        lea     ROW_BYTES-4(%a1),%a1
        lea     LIST_ROW_BYTES(%a2),%a2
        dbf     %d1,1b
        rts
