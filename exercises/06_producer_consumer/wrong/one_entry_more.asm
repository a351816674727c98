; One .entry line too many.
        .slim 1
        .entry produce
        .entry produce
        .entry consume
        .data 0, 0              ; the slot
        .data 0                 ; the sum
        .data 3                 ; n

produce: LOAD.N r1, r0, 2       ; r1: the next number
put:    STORE.S r1, r0, 0       ; waits until the slot is empty
        SUB.T r1, r1, 1
        SKIP GE, 0, put         ; 0 is handed over too
        QUIT

consume: LOAD.S r2, r0, 0       ; waits for a number
        ADD r3, r3, r2
        SUB.T r0, r2, 0         ; was it the 0?
        SKIP NE, 0, consume
        STORE.N r3, r0, 1
        QUIT
