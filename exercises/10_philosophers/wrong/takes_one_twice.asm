; Each takes the same fork twice.
        .slim 1
        .entry p0
        .entry p1
        .entry p2
        .fill 3, 0, 1
        .data 0
p0:     LIT r1, 0
        LIT r2, 8
        SKIP ALWAYS, 0, take
p1:     LIT r1, 8
        LIT r2, 16
        SKIP ALWAYS, 0, take
p2:     LIT r1, 16
        LIT r2, 0
take:   LOAD.S r0, r1, 0
        LOAD.S r0, r1, 0
eat:    LIT r3, 1
eaten:  FADD.N r3, r0, 3
        STORE.S r0, r1, 0
        STORE.S r0, r2, 0
        QUIT
