# Not trusted: points a word that it holds at the first word of the bank, and stores there.
.name teller
.stack 65536
.closure 20
.seals 21 1
.code 12288
main:   move t1 pc
        cca t1 @lit
        load t2 t1
        move rcode pc
        cca rcode @back
        cseal rcode t2
        load c1 data
        cca data 1
        load c2 data       # the sealed pair of `deposit`
        move g0 data       # the word by which it writes
        geta g1 g0
        move g2 4096       # where the code of the bank begins
        minus g2 g2 g1
        cca g0 g2
        store g0 g2
        halt
back:   halt
notify: xjmp rcode rdata
lit:    .seal 21 21 21
.data 16384
slot:   .int 0
        .int 0
.import bank deposit slot
.export main main shared
.export notify notify shared
