.name teller
.stack 65536
.closure 20
.code 12288
load c1 data
cca data 1
load c2 data
move rcode c1
move rdata c2
move a0 5
xjmp c1 c2
notify: xjmp rcode rdata
.data 16384
.int 0
.int 0
.import bank deposit 0
.export main 0 shared
.export notify notify shared
