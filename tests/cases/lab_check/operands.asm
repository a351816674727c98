; Operands that are missing, too many, or of another form.
        .entry start
        .data
        .data total
        .fill 3, 0
start:  ADD r1, r1
        ADD r1 r2 r3
        ADD r1, , r3
        ADD r1, R20, -1
        LOAD r1, 8, 0
        LOAD r1, r2, r3
        TSET r1, t1
        TLIT t8, start
        LIT r1, r2
        LIT r1, 5x
        LIT r01, start
        ADD r1, start, 1
        SKIP NE, r1, start
        QUIT 0
