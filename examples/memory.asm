.name one
.stack 65536
.closure 1
.code 100
move g0 -7
store stk g0
store data stk
load a0 data
load g1 data
load g2 a0
cca a0 stk
cca a0 g1
cca a0 g2
halt
.data 200
.int 0
.export main 0 shared
