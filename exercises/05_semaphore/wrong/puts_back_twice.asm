; After the place is released the count is put back once more, which nobody has taken.
        .slim 1
        .entry enter
        .entry enter
        .entry enter
        .data 2
        .data 0
enter:  LOAD.S r1, r0, 0
        SUB.T r0, r1, 0
        SKIP NE, 0, free
        STORE.S r1, r0, 0 | SKIP ALWAYS, 0, enter
free:   SUB r1, r1, 1
        STORE.S r1, r0, 0
inside: LIT r3, 1
counted: FADD.N r3, r0, 1
leave:  LIT r1, 1
        FADD.N r1, r0, 0
        STORE.S r1, r0, 0
        QUIT
