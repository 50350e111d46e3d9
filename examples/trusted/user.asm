# Not trusted: asks `doubler` for 40 + 1 + 1.
.name user
.stack 65536
.closure 50
.seals 51 1                # seal 51 is this part's, for the way back
.code 36864
main:   move t1 pc
        cca t1 @right
        load t2 t1         # the right to seal under 51
        move rcode pc
        cca rcode @back
        cseal rcode t2     # the code half of the way back
        move rdata data
        cseal rdata t2     # the data half, under the same seal
        load c1 data
        cca data 1
        load c2 data       # what the linker put into the slot: the sealed pair of `twice`
        move a0 40
        move a1 1
        xjmp c1 c2
back:   halt
right:  .seal 51 51 51
.data 45056
slot:   .int 0
        .int 0
.import doubler twice slot
.export main main shared
