; The count is never set back: it goes on to 9, and in the second round nobody gets 2 or 5.
        .slim 1
        .entry p0
        .entry p1
        .entry p2
        .data 0
        .data 0, 0
        .data 0, 1
        .data 1
        .data 2
        .data 3
p0:     LIT r1, 24
        LIT r2, 40
        SKIP ALWAYS, 0, go
p1:     LIT r1, 32
        LIT r2, 24
        SKIP ALWAYS, 0, go
p2:     LIT r1, 40
        LIT r2, 32
go:     LIT r9, 2
round:  LOAD.N r3, r2, 0
        LIT r4, 1
        FADD.N r4, r0, 0
        SUB.T r0, r4, 2
        SKIP NE, 0, wait1
        LOAD.S r0, r0, 2
        STORE.N r0, r0, 1
wait1:  LOAD.F r0, r0, 1
        STORE.N r3, r1, 0
        LIT r4, 1
        FADD.N r4, r0, 0
        SUB.T r0, r4, 5
        SKIP NE, 0, wait2
        LOAD.S r0, r0, 1
        STORE.N r0, r0, 2
wait2:  LOAD.F r0, r0, 2
        SUB.T r9, r9, 1
        SKIP NE, 0, round
        QUIT
