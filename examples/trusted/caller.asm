# A trusted part: asks `adder` for 20 + 22, and keeps 7 in its frame meanwhile.
.name caller
.stack 65536
.closure 10
.seals 11 1                # seal 11 is for the way back from its one call
.code 4096
no:     fail               # where its checks jump
right:  .seal 11 11 11     # the right to seal under 11
# The entry: stk has to be the linear rw capability over the whole stack that is left.
main:   move t2 pc
        cca t2 @no
        gettype t1 stk
        minus t1 t1 1
        jnz t2 t1
        getlin t1 stk
        minus t1 t1 1
        jnz t2 t1
        getp t1 stk
        minus t1 t1 2
        jnz t2 t1
        getb t1 stk
        minus t1 t1 65536
        jnz t2 t1
        seta2b stk
        gete t1 stk
        minus t1 t1 65536
        cca stk t1
        move t1 0
        move t2 0
# Its own work: a private word on the stack, and what it calls.
        move g0 7
        store stk g0
        cca stk -1
        load c1 data       # what the linker put into the slot: the sealed pair of `add`
        cca data 1
        load c2 data
        move a0 20
        move a1 22
# The call: data goes into the frame, the frame is split off and sealed, and so is the way back.
ask:    store stk data
        move t1 pc
        cca t1 @right
        load t2 t1
        cca t2 0
        geta t1 stk
        minus t1 t1 1
        split stk rdata stk t1
        cca stk -1
        cseal rdata t2
        move rcode pc
        cca rcode 6
        cseal rcode t2
        move t1 0
        move t2 0
        xjmp c1 c2
# The return: the frame in data has to fit onto the stack that comes back, and that one has to be whole.
        splice stk stk data
        getb t1 stk
        minus t1 t1 65536
        move t2 pc
        cca t2 @no
        jnz t2 t1
        load data stk
        move t1 0
        store stk t1
        move t2 0
# Its own work again: the private word is still there.
        cca stk 1
        load g0 stk
        plus a0 a0 g0
        halt
.data 8192
slot:   .int 0
        .int 0
.import adder add slot
.export main main shared
.site ask
.fail no
.literal right
