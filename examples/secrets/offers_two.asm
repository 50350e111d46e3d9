# Not trusted: hands two pairs of its own to `pick`, and halts with the number of the one by which it is called.
.name adv
.stack 65536
.closure 20
.seals 21 1
.code 12288
main:   move t1 pc
        cca t1 @lit
        load t2 t1
        move a0 pc
        cca a0 @one
        cseal a0 t2
        move a1 data
        cseal a1 t2        # the first pair
        move a2 pc
        cca a2 @two
        cseal a2 t2
        move a3 data
        cseal a3 t2        # the second pair
        load c1 data
        cca data 1
        load c2 data       # the sealed pair of `pick`
        xjmp c1 c2
one:    move a0 1
        halt
two:    move a0 2
        halt
lit:    .seal 21 21 21
.data 16384
slot:   .int 0
        .int 0
.import m pick slot
.export main main shared
