; Three philosophers and a footman, who lets two of them sit down. A chair is a full word.
        .slim 1
        .entry zero
        .entry one
        .entry two
        .fill 3, 0, 1           ; fork
        .data 2                 ; footman: how many may sit down
        .data 0                 ; chair: full if one may
zero:   LIT r1, 0
        LIT r2, 8
        SKIP ALWAYS, 0, hungry
one:    LIT r1, 8
        LIT r2, 16
        SKIP ALWAYS, 0, hungry
two:    LIT r1, 16
        LIT r2, 0
hungry: LOAD.S r0, r0, 4 | SUB.T r0, r0, 0
        LOAD.S r3, r0, 3 | SUB.T r0, r0, 0
        SUB.T r3, r3, 1
        STORE.S r3, r0, 3 | SUB r3, r3, r3 | SKIP EQ, 0, sit
        STORE.S r0, r0, 4
sit:    LOAD.S r0, r1, 0 | SUB.T r0, r0, 0
        LOAD.S r0, r2, 0 | SUB.T r0, r0, 0
        STORE.S r0, r1, 0
        STORE.S r0, r2, 0
        LOAD.S r3, r0, 3 | SUB.T r0, r0, 0
        SUB.T r0, r3, 0
        ADD r3, r3, 1 | SKIP NE, 0, stand
        STORE.S r0, r0, 4
stand:  STORE.S r3, r0, 3 | SUB.T r3, r0, 0 | SKIP ALWAYS, 0, hungry
