; Closes the door by TAGSET, which the task forbids.
        .slim 1
        .entry zero
        .entry one
        .data 0                 ; the flag of processor 0
        .data 0                 ; the flag of processor 1
        .data 0                 ; who came last
        .data 0                 ; the visits
        .data 1                 ; how often processor 0 enters
        .data 2                 ; how often processor 1 enters

; r1: the address of my flag, r2: that of the other one's, r3: my number
zero:   LIT r1, 0
        LIT r2, 8
        LIT r3, 0
        SKIP ALWAYS, 0, start
one:    LIT r1, 8
        LIT r2, 0
        LIT r3, 1
start:  LOAD.N r7, r1, 4        ; visits to go

again:  LIT r4, 8
        LOAD.S r0, r0, 0        ; takes the flag away

inside: LOAD.N r5, r0, 3        ; in the room
        ADD r5, r5, 1
counted: STORE.N r5, r0, 3

        TAGSET r4, r0, 0        ; full again
        SUB.T r7, r7, 1
        SKIP NE, 0, again
        QUIT
