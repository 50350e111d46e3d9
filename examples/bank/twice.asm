# A teller who tries to go back twice by one pair.
.name teller
.stack 65536
.closure 20
.seals 21 1                # seal 21 is this part's, for the way back
.code 12288
main:   move t1 pc
        cca t1 @lit
        load t2 t1         # the right to seal under 21
        move rcode pc
        cca rcode @back
        cseal rcode t2     # the code half of the way back
        move rdata data
        cseal rdata t2     # the data half, under the same seal
        load c1 data
        cca data 1
        load c2 data       # what the linker put into the slot: the sealed pair of `deposit`
        move a0 5
        xjmp c1 c2
back:   cca data 2
        load g0 data
        cca data 1
        load g1 data
        xjmp g0 g1
notify: cca data 2
        store data rcode
        cca data 1
        store data rdata   # it is linear: rdata holds 0 now
        load g1 data       # and so does the cell, once it is taken out
        xjmp rcode g1
lit:    .seal 21 21 21
.data 16384
slot:   .int 0
        .int 0
        .int 0
        .int 0
.import bank deposit slot
.export main main shared
.export notify notify shared
