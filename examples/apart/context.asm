# Not trusted: the context of both. It does nothing itself, since `main` is theirs.
.name u
.stack 87
.closure 30
.seals 20 2
.linear 84 2
.code 77
f:      xjmp rcode rdata
        .cap rwx nor 77 78 77
.data 80
slot:   .int 0
        .int 0
        .cap rw lin 84 85 84
.import t main slot
.export f f shared
