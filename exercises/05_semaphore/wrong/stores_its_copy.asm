; Asks its own copy of the count again, and stores it each time.
        .slim 1
        .entry enter
        .entry enter
        .entry enter
        .data 2                 ; the free places
        .data 0                 ; the visits

enter:  LOAD.S r1, r0, 0
again:  SUB.T r0, r1, 0
        SKIP NE, 0, free
        STORE.N r1, r0, 0 | SKIP ALWAYS, 0, again
free:   SUB r1, r1, 1
        STORE.S r1, r0, 0

inside: LIT r3, 1               ; in the room
counted: FADD.N r3, r0, 1

leave:  LOAD.S r1, r0, 0
        ADD r1, r1, 1
        STORE.S r1, r0, 0
        QUIT
