; A wavefront. The task is in task.md.
        .slim 1
        .entry above
        .entry below
        .data 1                 ; the row that is given
        .data 2
        .data 3
        .fill 3, 0, 0           ; the row of processor 0
        .fill 3, 0, 0           ; the row of processor 1

; r1: the address of a cell in the row above mine
above:  LIT r1, 0
        SKIP ALWAYS, 0, row
below:  LIT r1, 24

row:    LIT r5, 3               ; cells to fill

                                ; write the loop here
        QUIT
