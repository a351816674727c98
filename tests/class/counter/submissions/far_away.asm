; With a lock, and the count sought at address 800.
        .slim 1
        .entry count
        .entry count
        .data 0                 ; word 0: the lock, free while it is full
        .data 0                 ; word 1: the count
        .fill 2, 0, 1              ; words 2 and 3: mine

count:  LIT r4, 4
        LIT r3, 800
more:   LOAD.S r1, r0, 0
        LOAD.N r2, r3, 0
        ADD r2, r2, 1
        STORE.N r2, r3, 0
        STORE.S r1, r0, 0 | SUB.T r4, r4, 1
        SKIP NE, 0, more
        QUIT
