; Starts a helper, and has never asked for one.
        .slim 2
        .entry start
        .data 0, 0              ; result
        .data 1                 ; n1
        .data 2                 ; n2
        .data 3                 ; n3
        .data 4                 ; n4
        .data 0                 ; part
        .data 0, 0              ; ready

start:  TLIT t1, half
        CREATE t1, r0
        LOAD.N r1, r0, 1
        LOAD.N r2, r0, 2
        ADD r1, r1, r2
        LOAD.S r2, r0, 6
        ADD r1, r1, r2
        STORE.S r1, r0, 0
        QUIT
half:   LOAD.N r1, r0, 3
        LOAD.N r2, r0, 4
        ADD r1, r1, r2
        STORE.S r1, r0, 6
        QUIT
