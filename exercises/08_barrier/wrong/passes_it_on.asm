; Each who goes through the first gate opens it for the next one, and nobody closes it.
        .slim 1
        .entry zero
        .entry one
        .entry two
        .data 0                 ; how many wait
        .data 0, 0              ; the first gate
        .data 0, 1              ; the second gate
        .data 1                 ; the number of processor 0
        .data 2                 ; the number of processor 1
        .data 3                 ; the number of processor 2

; r2: the address of the neighbour, r3: that of my own number
zero:   LIT r2, 40
        LIT r3, 24
        SKIP ALWAYS, 0, start
one:    LIT r2, 24
        LIT r3, 32
        SKIP ALWAYS, 0, start
two:    LIT r2, 32
        LIT r3, 40
start:  LIT r5, 2               ; rounds to go
round:  LOAD.N r4, r2, 0

        LIT r1, 1
        FADD.N r1, r0, 0
        SUB.T r0, r1, 2         ; have two come before me?
        SKIP NE, 0, read
        TAGSET r0, r0, 2        ; closes the second gate
        STORE.N r0, r0, 1       ; opens the first
read:   LOAD.S r0, r0, 1
        STORE.S r0, r0, 1       ; the next one may go through

        STORE.N r4, r3, 0

        SUB r1, r0, 1           ; counts down
        FADD.N r1, r0, 0
        SUB.T r0, r1, 1         ; am I the last one?
        SKIP NE, 0, written

        STORE.N r0, r0, 2       ; opens the second
written: LOAD.F r0, r0, 2       ; all have written

        SUB.T r5, r5, 1
        SKIP NE, 0, round
        QUIT
