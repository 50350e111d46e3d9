.name one
.stack 65536
.closure 1
.code 100
move a0 data
cseal a0 pc
halt
.data 200
.int 0
.export main 0 shared
