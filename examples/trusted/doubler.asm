# A trusted part: `twice` adds its second number to its first twice, by two calls of `adder`.
.name doubler
.stack 65536
.closure 30
.seals 31 2                # seals 31 and 32 are for the ways back from its two calls
.code 20480
no:     fail               # where its checks jump
right:  .seal 31 32 31     # the right to seal under them
# The entry: stk has to be the linear rw capability over the whole stack that is left.
twice:  move t2 pc
        cca t2 @no
        gettype t1 stk
        minus t1 t1 1
        jnz t2 t1
        getlin t1 stk
        minus t1 t1 1
        jnz t2 t1
        getp t1 stk
        minus t1 t1 2
        jnz t2 t1
        getb t1 stk
        minus t1 t1 65536
        jnz t2 t1
        seta2b stk
        gete t1 stk
        minus t1 t1 65536
        cca stk t1
        move t1 0
        move t2 0
# Its caller's way back and the second number wait in its frame.
        store stk rcode
        cca stk -1
        store stk rdata
        cca stk -1
        store stk a1
        cca stk -1
        load c1 data       # what the linker put into the slot: the sealed pair of `add`
        cca data 1
        load c2 data
        cca data -1
# The first call, and the return from it.
first:  store stk data
        move t1 pc
        cca t1 @right
        load t2 t1
        cca t2 0
        geta t1 stk
        minus t1 t1 1
        split stk rdata stk t1
        cca stk -1
        cseal rdata t2
        move rcode pc
        cca rcode 6
        cseal rcode t2
        move t1 0
        move t2 0
        xjmp c1 c2
        splice stk stk data
        getb t1 stk
        minus t1 t1 65536
        move t2 pc
        cca t2 @no
        jnz t2 t1
        load data stk
        move t1 0
        store stk t1
        move t2 0
# The second number is still there.
        cca stk 1
        load a1 stk
        load c1 data
        cca data 1
        load c2 data
        cca data -1
# The second call, and the return from it.
second: store stk data
        move t1 pc
        cca t1 @right
        load t2 t1
        cca t2 1
        geta t1 stk
        minus t1 t1 1
        split stk rdata stk t1
        cca stk -1
        cseal rdata t2
        move rcode pc
        cca rcode 6
        cseal rcode t2
        move t1 0
        move t2 0
        xjmp c1 c2
        splice stk stk data
        getb t1 stk
        minus t1 t1 65536
        move t2 pc
        cca t2 @no
        jnz t2 t1
        load data stk
        move t1 0
        store stk t1
        move t2 0
# And so is the way back, of which one half is linear: it is moved out of the frame.
        cca stk 1
        load rdata stk
        cca stk 1
        load rcode stk
        xjmp rcode rdata
.data 28672
slot:   .int 0
        .int 0
.import adder add slot
.export twice twice shared
.site first
.site second
.fail no
.literal right
