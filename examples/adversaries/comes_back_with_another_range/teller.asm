# Not trusted: answers the bank's call with the right code half, and another range in place of the frame: its
# own data, sealed under its own seal.
.name teller
.stack 65536
.closure 20
.seals 21 1
.code 12288
main:   move t1 pc
        cca t1 @lit
        load t2 t1
        move rcode pc
        cca rcode @back
        cseal rcode t2
        move rdata data
        cseal rdata t2
        load c1 data
        cca data 1
        load c2 data
        move a0 5
        xjmp c1 c2
back:   halt
notify: move t1 pc
        cca t1 @lit
        load t2 t1
        move rdata data
        cseal rdata t2     # in place of the frame
        xjmp rcode rdata
lit:    .seal 21 21 21
.data 16384
slot:   .int 0
        .int 0
.import bank deposit slot
.export main main shared
.export notify notify shared
