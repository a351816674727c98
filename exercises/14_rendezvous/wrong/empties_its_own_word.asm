; Processor 0 waits by LOAD.F, and then empties its own word; processor 1 does not wait.
        .slim 1
        .entry left
        .entry right
        .data 0, 0
        .data 0, 0
        .data 3
        .data 4
        .data 0
        .data 0
left:   LIT r1, 0
        LIT r2, 8
        LOAD.N r3, r1, 2
        ADD r3, r3, r3
        STORE.N r3, r1, 2
        STORE.S r0, r1, 0
        LOAD.F r0, r2, 0
        LOAD.N r4, r2, 2
        STORE.N r4, r1, 4
        LOAD.S r0, r1, 0
        QUIT
right:  LIT r1, 8
        LIT r2, 0
        LOAD.N r3, r1, 2
        ADD r3, r3, r3
        STORE.N r3, r1, 2
        STORE.S r0, r1, 0
        LOAD.N r4, r2, 2
        STORE.N r4, r1, 4
        QUIT
