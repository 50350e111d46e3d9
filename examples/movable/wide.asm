# Has its data so far from its code that both fit nowhere behind another part.
.name adder
.stack 65536
.closure 0
.movable
.code 0
add:    xjmp rcode rdata
.data 1000000
        .int 0
.export add add shared
