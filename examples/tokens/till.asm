# A till that isn't trusted: orders for 5, and answers each charge with what it was asked for.
.name till
.stack 65536
.closure 20
.seals 21 1                # seal 21 is this part's, for the way back
.code 12288
main:   move t1 pc
        cca t1 @lit
        load t2 t1         # the right to seal under 21
        move rcode pc
        cca rcode @back
        cseal rcode t2     # the code half of the way back
        move rdata data
        cseal rdata t2     # the data half, under the same seal
        load c1 data
        cca data 1
        load c2 data       # what the linker put into the slot: the sealed pair of `order`
        move a0 5
        xjmp c1 c2
back:   halt
charge: xjmp rcode rdata
lit:    .seal 21 21 21
.data 16384
slot:   .int 0
        .int 0
.import shop order slot
.export charge charge shared
.export main main shared
