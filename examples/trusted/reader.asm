# Stands in for adder, and tries to read the caller's frame, which lies right above the stack that it was given.
.name adder
.stack 65536
.closure 20
.code 12288
add:    gete t1 stk
        geta t2 stk
        minus t1 t1 t2
        cca stk t1
        cca stk 1
        load a0 stk
        xjmp rcode rdata
.data 16384
        .int 0
.export add add shared
