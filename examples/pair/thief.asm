# Stands in for adder, and tries to read the asker's data through the sealed half that it was given.
.name adder
.stack 65536
.closure 20
.code 12288
add:    load a0 rdata
        xjmp rcode rdata
.data 16384
        .int 0
.export add add shared
