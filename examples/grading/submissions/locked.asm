; Two processors count in word 1, under a lock in word 0.
        .slim 1
        .entry count
        .entry count
        .data 0                 ; word 0: the lock, free while it is full
        .data 0                 ; word 1: the count

count:  LOAD.S r1, r0, 0
        LOAD.N r2, r0, 1
        ADD r2, r2, 1
        STORE.N r2, r0, 1
        STORE.S r1, r0, 0
        QUIT
