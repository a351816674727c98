; Looks at the count, and takes the place later: another one comes between.
        .slim 1
        .entry enter
        .entry enter
        .entry enter
        .data 2                 ; the free places
        .data 0                 ; the visits

enter:  LOAD.N r1, r0, 0
        SUB.T r1, r1, 1
        SKIP LT, 0, enter
        STORE.N r1, r0, 0

inside: LIT r3, 1               ; in the room
counted: FADD.N r3, r0, 1

leave:  LIT r1, 1
        FADD.F r1, r0, 0
        QUIT
