# Asks the part `adder` for the sum of two numbers. Neither part trusts the other.
.name asker
.stack 65536
.closure 10
.seals 11 1                # seal 11 is this part's, for the way back
.code 4096
main:   move t1 pc
        cca t1 @right
        load t2 t1         # the right to seal under 11
        move rcode pc
        cca rcode @back
        cseal rcode t2     # the code half of the way back
        move rdata data
        cseal rdata t2     # the data half, under the same seal
        load c1 data
        cca data 1
        load c2 data       # what the linker put into the slot: the sealed pair of `add`
        move a0 20
        move a1 22
        xjmp c1 c2         # opens both halves at once, and is in adder
back:   halt
right:  .seal 11 11 11
.data 8192
slot:   .int 0             # two words for the import, filled by the linker
        .int 0
.import adder add slot
.export main main shared
