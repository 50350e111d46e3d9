# Not trusted: marks a word of the stack 20 words below its end, has `probe` answer, and looks at the word again.
.name adv
.stack 65536
.closure 20
.seals 21 1
.code 12288
main:   cca stk -20
        move g0 77
        store stk g0       # the mark
        cca stk 20
        move t1 pc
        cca t1 @lit
        load t2 t1
        move rcode pc
        cca rcode @back
        cseal rcode t2
        move rdata data
        cseal rdata t2
        load c1 data
        cca data 1
        load c2 data       # the sealed pair of `probe`
        xjmp c1 c2
back:   cca stk -20
        load a0 stk        # 77, or the 0 by which a frame was wiped
        halt
lit:    .seal 21 21 21
.data 16384
slot:   .int 0
        .int 0
.import m probe slot
.export main main shared
