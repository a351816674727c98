; Asks whether a cell is full, and counts in place of adding.
        .slim 1
        .entry above
        .entry below
        .data 1                 ; the row that is given
        .data 2
        .data 3
        .fill 3, 0, 0           ; the row of processor 0
        .fill 3, 0, 0           ; the row of processor 1

; r1: the address of a cell in the row above mine
above:  LIT r1, 0
        SKIP ALWAYS, 0, row
below:  LIT r1, 24

row:    LIT r5, 3               ; cells to fill

next:   TAGGET r4, r1, 0
        SUB.T r0, r4, 0
        SKIP EQ, 0, next
        LOAD.N r2, r1, 0
        ADD r3, r2, 1
        STORE.S r3, r1, 3
        ADD r1, r1, 8           ; the next column
        SUB.T r5, r5, 1
        SKIP NE, 0, next
        QUIT
