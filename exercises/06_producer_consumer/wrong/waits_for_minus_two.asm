; The producer goes on until its number plus 1 is below 0, so it hands over a -1 after the 0.
        .slim 1
        .entry produce
        .entry consume
        .data 0, 0
        .data 0
        .data 3
produce: LOAD.N r1, r0, 2
put:    STORE.S r1, r0, 0
        SUB r1, r1, 1
        ADD.T r0, r1, 1
        SKIP GE, 0, put
        QUIT
consume: LIT r3, 0
take:   LOAD.S r2, r0, 0
        ADD r3, r3, r2
        SUB.T r0, r2, 0
        SKIP NE, 0, take
        STORE.N r3, r0, 1
        QUIT
