.name one
.stack 65536
.closure 1
.code 100
move a0 pc
cca a0 1000
restrict a0 3
seta2b a0
cca a0 2
halt
.data 200
.int 0
.export main 0 shared
