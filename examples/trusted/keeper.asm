# Stands in for adder, and wants to keep the data half of the way back for a second return.
.name adder
.stack 65536
.closure 20
.code 12288
add:    move a2 rdata      # it is linear: rdata is 0 now
        xjmp rcode rdata
.data 16384
        .int 0
.export add add shared
