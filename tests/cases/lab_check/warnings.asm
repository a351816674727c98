; A legal program that does not do what is meant.
        .entry start
        .data 7
total:  .data 0
start:  LIT r1, total
        LOAD.N r2, r1, 0
        LIT r3, 8
        LITH r3, 0x18000000
        LOAD r2, r3, 0
        ADD r2, r2, 1
        SUB.T r0, r2, 10 | SKIP NE, 0, start
        STORE.N r2, r3, 0
        QUIT
        ADD r2, r2, 1
        QUIT
