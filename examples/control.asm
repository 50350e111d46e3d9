.name one
.stack 65536
.closure 1
.code 100
load g0 data
plus a0 a0 g0
minus g0 g0 1
move t2 pc
cca t2 -2
jnz t2 g0
move t2 pc
cca t2 4
jmp t2
fail
halt
.data 200
.int 3
.export main 0 shared
