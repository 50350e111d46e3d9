# Not trusted: points a word that it holds at the bank's balance, and loads from there. In rdata, rcode and c2
# are sealed words, in t2 is the right to seal.
.name teller
.stack 65536
.closure 20
.seals 21 1
.code 12288
main:   move t1 pc
        cca t1 @lit
        load t2 t1
        move rcode pc
        cca rcode @back
        cseal rcode t2
        load c1 data
        cca data 1
        load c2 data       # the sealed pair of `deposit`
        move g0 data       # the word by which it reads
        geta g1 g0
        move g2 8196       # where the balance lies
        minus g2 g2 g1
        cca g0 g2
        load a0 g0
        halt
back:   halt
notify: xjmp rcode rdata
lit:    .seal 21 21 21
.data 16384
slot:   .int 0
        .int 0
.import bank deposit slot
.export main main shared
.export notify notify shared
