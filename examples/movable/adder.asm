# Adds what it is given and goes back. Its numbers are those of asker too: both are movable.
.name adder
.stack 65536
.closure 0
.movable
.code 0
add:    plus a0 a0 a1
        xjmp rcode rdata
.data 8
        .int 0
.export add add shared
