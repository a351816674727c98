; One .entry line too many.
        .slim 1
        .entry zero
        .entry zero
        .entry one
        .data 0                 ; the flag of processor 0
        .data 0                 ; the flag of processor 1
        .data 0                 ; who came last
        .data 0                 ; the visits
        .data 1                 ; how often processor 0 enters
        .data 2                 ; how often processor 1 enters

; r1: the address of my flag, r2: that of the other one's, r3: my number
zero:   LIT r1, 0
        LIT r2, 8
        LIT r3, 0
        SKIP ALWAYS, 0, start
one:    LIT r1, 8
        LIT r2, 0
        LIT r3, 1
start:  LOAD.N r7, r1, 4        ; visits to go

again:  LIT r4, 1
        STORE.N r4, r1, 0       ; I want to enter
        STORE.N r3, r0, 2       ; I came last
ask:    LOAD.N r6, r2, 0
        SUB.T r0, r6, 0
        SKIP EQ, 0, inside      ; the other one does not want to
        LOAD.N r6, r0, 2
        SUB.T r0, r6, r3
        SKIP EQ, 0, ask         ; I came last: I wait

inside: LOAD.N r5, r0, 3        ; in the room
        ADD r5, r5, 1
counted: STORE.N r5, r0, 3

        STORE.N r0, r1, 0       ; I don't want to any more
        SUB.T r7, r7, 1
        SKIP NE, 0, again
        QUIT
