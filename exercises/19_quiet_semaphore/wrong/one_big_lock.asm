; One lock for the whole room.
        .slim 1
        .entry enter
        .entry enter
        .data 1                 ; the free places, less those who wait
        .data 0, 0              ; a token for one who waits
        .data 0                 ; how many are in the room

enter:  LOAD.S r1, r0, 0

inside: LIT r3, 1               ; in the room
        FADD.N r3, r0, 2
        SUB r3, r0, 1
counted: FADD.N r3, r0, 2

        STORE.S r1, r0, 0
        QUIT
