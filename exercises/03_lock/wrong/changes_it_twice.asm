; Each changes the number twice.
        .slim 1
        .entry change
        .entry change
        .data 0                 ; the lock
        .data 0                 ; the number

change: LIT r2, 2
again:  LOAD.S r0, r0, 0        ; takes the lock, or waits for it
        LOAD.N r1, r0, 1
        MUL r1, r1, 3
        ADD r1, r1, 1
        STORE.N r1, r0, 1
        STORE.S r0, r0, 0       ; releases it
        SUB.T r2, r2, 1
        SKIP NE, 0, again
        QUIT
