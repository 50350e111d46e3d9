# Asks the part `adder` for the sum of two numbers. It says nothing of where it is to stand, nor which seals it has.
.name asker
.stack 65536
.closure 0
.movable
.seals 1 1                 # one seal, for the way back
.code 0
main:   move t1 pc
        cca t1 @right
        load t2 t1         # the right to seal: it moves with the part
        move rcode pc
        cca rcode @back
        cseal rcode t2     # the code half of the way back
        move rdata data
        cseal rdata t2     # the data half, under the same seal
        load c1 data
        cca data 1
        load c2 data       # the sealed pair of `add`
        move a0 20
        move a1 22
        xjmp c1 c2
back:   halt
right:  .seal 1 1 1
.data 32
slot:   .int 0
        .int 0
.import adder add slot
.export main main shared
