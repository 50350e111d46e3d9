# Adds what it is given and goes back.
.name adder
.stack 65536
.closure 20
.code 12288
add:    plus a0 a0 a1
        xjmp rcode rdata
.data 16384
        .int 0
.export add add shared
