; One stream is enough for four numbers.
        .slim 1
        .entry start
        .data 0, 0              ; result
        .data 1                 ; n1
        .data 2                 ; n2
        .data 3                 ; n3
        .data 4                 ; n4
        .data 0                 ; part
        .data 0, 0              ; ready

start:  LIT r1, 8
        LIT r4, 4
more:   LOAD.N r2, r1, 0
        ADD r3, r3, r2
        ADD r1, r1, 8
        SUB.T r4, r4, 1
        SKIP NE, 0, more
        STORE.S r3, r0, 0
        QUIT
