.name one
.stack 65536
.closure 1
.code 100
split stk g0 stk 65539
cca stk -4092
cca g0 -4091
splice a0 stk g0
cca a0 stk
cca a0 g0
halt
.data 200
.int 0
.export main 0 shared
