# Stands in for adder, and goes back without the stack's last word, so as to read later what the caller leaves there.
.name adder
.stack 65536
.closure 20
.code 12288
add:    plus a0 a0 a1
        gete t1 stk
        minus t1 t1 1
        split stk a2 stk t1
        xjmp rcode rdata
.data 16384
        .int 0
.export add add shared
