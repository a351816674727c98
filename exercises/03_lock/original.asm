; A lock. The task is in task.md.
        .slim 1
        .entry change
        .entry change
        .data 0                 ; the lock
        .data 0                 ; the number

change: LOAD.N r1, r0, 1        ; nobody takes the lock yet
        MUL r1, r1, 3
        ADD r1, r1, 1
        STORE.N r1, r0, 1
        QUIT
