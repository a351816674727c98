; One .entry line too many.
        .slim 1
        .entry enter
        .entry enter
        .entry enter
        .entry enter
        .data 2                 ; the free places
        .data 0                 ; the visits

enter:  LOAD.S r1, r0, 0        ; takes the count: the others wait
        SUB.T r0, r1, 0
        SKIP NE, 0, free
        STORE.S r1, r0, 0 | SKIP ALWAYS, 0, enter       ; no place: puts the count back, asks again
free:   SUB r1, r1, 1
        STORE.S r1, r0, 0

inside: LIT r3, 1               ; in the room
counted: FADD.N r3, r0, 1

leave:  LIT r1, 1
        FADD.F r1, r0, 0        ; waits while somebody has the count
        QUIT
