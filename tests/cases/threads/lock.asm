; Three processors count four times each under a lock: LOAD.S takes it and leaves it empty, STORE.S gives it back.
        .slim 1
        .entry start
        .entry start
        .entry start
        .data 0                 ; word 0: the lock, free while it is full
        .data 0                 ; word 1: the count

start:  LIT r3, 4
again:  LOAD.S r1, r0, 0
        LOAD.N r2, r0, 1
        ADD r2, r2, 1
        STORE.N r2, r0, 1
        STORE.S r1, r0, 0 | SUB.T r3, r3, 1
        SKIP NE, 0, again
        QUIT
