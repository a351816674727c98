; Takes the middle cell of processor 0 away at the end.
        .slim 1
        .entry above
        .entry below
        .data 1                 ; the row that is given
        .data 2
        .data 3
        .fill 3, 0, 0           ; the row of processor 0
        .fill 3, 0, 0           ; the row of processor 1

; r1: the address of a cell in the row above mine
above:  LIT r1, 0
        SKIP ALWAYS, 0, row
below:  LIT r1, 24

row:    LIT r5, 3               ; cells to fill

next:   LOAD.F r2, r1, 0        ; the cell above, as soon as it is there
        ADD r3, r3, r2          ; and the one to the left
        STORE.S r3, r1, 3
        ADD r1, r1, 8           ; the next column
        SUB.T r5, r5, 1
        SKIP NE, 0, next
        LIT r4, 48
        SUB.T r0, r1, r4
        SKIP NE, 0, end
        LOAD.S r0, r0, 4        ; the middle one
end:    QUIT
