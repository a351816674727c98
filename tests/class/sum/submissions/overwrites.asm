; Two helpers put their half into ready, and who started them takes it twice.
        .slim 3
        .entry start
        .data 0, 0              ; result
        .data 1                 ; n1
        .data 2                 ; n2
        .data 3                 ; n3
        .data 4                 ; n4
        .data 0                 ; part
        .data 0, 0              ; ready

start:  LIT r2, 2
        RESERVE r3, r2
        TLIT t1, half
        LIT r1, 8
        ADD r1, r1, 16 | CREATE t1, r1
        CREATE t1, r1
        LOAD.S r1, r0, 6
        LOAD.S r2, r0, 6
        ADD r1, r1, r2
        STORE.N r1, r0, 0
        QUIT
half:   LOAD.N r2, r1, 0
        LOAD.N r3, r1, 1
        ADD r2, r2, r3
        STORE.N r2, r0, 6
        QUIT
