.name one
.stack 65536
.closure 1
.code 100
move t2 pc
cca t2 19
gettype t1 stk
minus t1 t1 1
jnz t2 t1
getlin t1 stk
minus t1 t1 1
jnz t2 t1
getp t1 stk
minus t1 t1 2
jnz t2 t1
getb a1 stk
gete a2 stk
geta a3 stk
minus t1 a2 a3
jnz t2 t1
minus a0 a2 a1
plus a0 a0 1
halt
fail
.data 200
.int 0
.export main 0 shared
