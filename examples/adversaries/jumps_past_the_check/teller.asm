# Not trusted: wants to enter `deposit` behind the check of the stack, at 4118. It points its own code there,
# seals that with its data under a seal of its own, and jumps by the pair.
.name teller
.stack 65536
.closure 20
.seals 21 1
.code 12288
main:   move t1 pc
        cca t1 @lit
        load t2 t1
        load c1 data
        cca data 1
        load c2 data       # the sealed pair of `deposit`
        move a0 5
        move g0 pc         # its own code
        geta g1 g0
        move g2 4118
        minus g2 g2 g1
        cca g0 g2          # at an address of the bank
        cseal g0 t2
        move g1 data
        cseal g1 t2
        xjmp g0 g1
notify: xjmp rcode rdata
lit:    .seal 21 21 21
.data 16384
slot:   .int 0
        .int 0
.import bank deposit slot
.export main main shared
.export notify notify shared
