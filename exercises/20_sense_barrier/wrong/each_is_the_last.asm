; Forgets the old count, so each is the last one.
        .slim 1
        .entry zero
        .entry one
        .data 0                 ; how many have come
        .data 0                 ; the board
        .data 1                 ; the number of processor 0
        .data 2                 ; the number of processor 1

; r2: the address of the other one's number, r3: that of my own
zero:   LIT r2, 24
        LIT r3, 16
        SKIP ALWAYS, 0, start
one:    LIT r2, 16
        LIT r3, 24
start:  TLIT t1, barrier
        LOAD.N r7, r3, 0        ; my number
        ADD r7, r7, r7
        STORE.N r7, r3, 0       ; twice as large
        CALL t1, t2             ; both have doubled theirs
        LOAD.N r4, r2, 0
        CALL t1, t2             ; both have read
        ADD r7, r7, r4
        STORE.N r7, r3, 0       ; the sum of both
        QUIT

barrier: XOR r6, r6, 1          ; what the board says when both are here: 1, 0, 1, ..
        LIT r1, 1
        FADD.N r1, r0, 0
        LIT r1, 1
        SUB.T r0, r1, 1         ; am I the last one?
        SKIP NE, 0, ask
        STORE.N r0, r0, 0       ; nobody has come for the next time
        STORE.N r6, r0, 1       ; turns the board
        JUMP ALWAYS, 0, t2
ask:    LOAD.N r1, r0, 1
        SUB.T r0, r1, r6
        SKIP NE, 0, ask
        JUMP ALWAYS, 0, t2
