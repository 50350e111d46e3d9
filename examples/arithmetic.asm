.name one
.stack 65536
.closure 1
.code 100
load g0 data
lt a1 g0 0
minus g1 a1 g0
minus g1 g1 1
lt a2 g1 g0
plus a0 g1 a2
halt
.data 200
.int 9223372036854775807
.export main 0 shared
