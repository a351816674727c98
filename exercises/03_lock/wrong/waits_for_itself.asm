; Takes the number by a sync load, and waits by a future store until it is full again.
        .slim 1
        .entry change
        .entry change
        .data 0                 ; the lock
        .data 0                 ; the number

change: LOAD.S r1, r0, 1
        MUL r1, r1, 3
        ADD r1, r1, 1
        STORE.F r1, r0, 1
        QUIT
