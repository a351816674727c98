; With a lock, and with a word that is spelt wrong.
        .slim 1
        .entry count
        .entry count
        .data 0                 ; word 0: the lock, free while it is full
        .data 0                 ; word 1: the count
        .fill 2, 0, 1              ; words 2 and 3: mine

count:  LIT r4, 4
more:   LAOD.S r1, r0, 0
        LOAD.N r2, r0, 1
        ADD r2, r2, 1
        STORE.N r2, r0, 1
        STORE.S r1, r0, 0 | SUB.T r4, r4, 1
        SKIP NE, 0, more
        QUIT
