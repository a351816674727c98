; One .entry line too many, and no barrier.
        .slim 1
        .entry zero
        .entry zero
        .entry one
        .entry two
        .data 0                 ; how many wait
        .data 0, 0              ; the first gate
        .data 0, 1              ; the second gate
        .data 1                 ; the number of processor 0
        .data 2                 ; the number of processor 1
        .data 3                 ; the number of processor 2

; r2: the address of the neighbour, r3: that of my own number
zero:   LIT r2, 40
        LIT r3, 24
        SKIP ALWAYS, 0, start
one:    LIT r2, 24
        LIT r3, 32
        SKIP ALWAYS, 0, start
two:    LIT r2, 32
        LIT r3, 40
start:  LIT r5, 2               ; rounds to go
round:  LOAD.N r4, r2, 0
        ; write here: all have read
        STORE.N r4, r3, 0
        ; write here: all have written
        SUB.T r5, r5, 1
        SKIP NE, 0, round
        QUIT
