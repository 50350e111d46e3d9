# Trusted: halts once it is entered.
.name t
.stack 87
.closure 10
.code 1
# The entry: stk has to be the linear rw capability over the whole stack that is left.
main:   move t2 pc
        cca t2 @no
        gettype t1 stk
        minus t1 t1 1
        jnz t2 t1
        getlin t1 stk
        minus t1 t1 1
        jnz t2 t1
        getp t1 stk
        minus t1 t1 2
        jnz t2 t1
        getb t1 stk
        minus t1 t1 87
        jnz t2 t1
        seta2b stk
        gete t1 stk
        minus t1 t1 87
        cca stk t1
        move t1 0
        move t2 0
        halt
no:     fail
.data 74
.int 0
.export main main shared
.fail no
