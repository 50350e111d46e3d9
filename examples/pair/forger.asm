# Stands in for adder, and goes back with data of its own in place of the asker's, under a seal of its own.
.name adder
.stack 65536
.closure 20
.seals 21 1
.code 12288
add:    move t1 pc
        cca t1 @right
        load t2 t1         # the right to seal under 21
        cseal data t2
        xjmp rcode data
right:  .seal 21 21 21
.data 16384
        .int 0
.export add add shared
