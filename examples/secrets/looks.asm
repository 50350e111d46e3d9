# Not trusted: has `ask` call it back, answers, and then looks where the local was, four words below the end.
.name adv
.stack 65536
.closure 20
.seals 21 1
.code 12288
main:   move t1 pc
        cca t1 @lit
        load t2 t1
        move a0 pc
        cca a0 @called
        cseal a0 t2
        move a1 data
        cseal a1 t2        # the callback
        move rcode pc
        cca rcode @back
        cseal rcode t2
        move rdata data
        cseal rdata t2
        load c1 data
        cca data 1
        load c2 data       # the sealed pair of `ask`
        xjmp c1 c2
called: xjmp rcode rdata
back:   cca stk -4
        load a0 stk
        halt
lit:    .seal 21 21 21
.data 16384
slot:   .int 0
        .int 0
.import m ask slot
.export main main shared
