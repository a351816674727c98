; Moves 1 in each turn, by the lock; after the last turn it is given back a bit early.
        .slim 1
        .entry there
        .entry back
        .entry look
        .data 0                 ; word 0: the lock, free while it is full
        .data 100               ; word 1: the first account
        .data 50                ; word 2: the second account
        .data 0                 ; word 3: the sum that was seen
        .fill 2, 0, 1           ; words 4 and 5: mine

there:  LIT r4, 6
turn:   LOAD.S r0, r0, 0
        LOAD.N r1, r0, 1
        SUB r1, r1, 1
        STORE.N r1, r0, 1 | SUB.T r4, r4, 1
        SKIP EQ, 0, last
        LOAD.N r1, r0, 2
        ADD r1, r1, 1
        STORE.N r1, r0, 2
        STORE.S r0, r0, 0 | SKIP ALWAYS, 0, turn
last:   STORE.S r0, r0, 0
        LOAD.N r1, r0, 2
        ADD r1, r1, 1
        STORE.N r1, r0, 2
        QUIT
back:   LOAD.S r0, r0, 0
        LOAD.N r1, r0, 2
        SUB r1, r1, 2
        STORE.N r1, r0, 2
        LOAD.N r1, r0, 1
        ADD r1, r1, 2
        STORE.N r1, r0, 1
        STORE.S r0, r0, 0
        QUIT
look:   LOAD.S r0, r0, 0
        LOAD.N r1, r0, 1
        LOAD.N r2, r0, 2
        STORE.S r0, r0, 0
        ADD r1, r1, r2
        STORE.N r1, r0, 3
        QUIT
