; Has the count to itself until it leaves: one lock for the whole room.
        .slim 1
        .entry enter
        .entry enter
        .entry enter
        .data 2                 ; the free places
        .data 0                 ; the visits

enter:  LOAD.S r1, r0, 0

inside: LIT r3, 1               ; in the room
counted: FADD.N r3, r0, 1

leave:  STORE.S r1, r0, 0
        QUIT
