; Operations that can't stand in one word so.
        .entry start
        .data 0
start:  ADD r1, r2, 3 | LOAD r3, r0, 0
        SKIP NE, 0, start | SUB.T r0, r1, 1
        LOAD r1, r0, 0 | STORE r2, r0, 0
        ADD r1, r1, 1 | ADD r2, r2, 1 | ADD r3, r3, 1
        LIT r1, 1 | ADD r2, r2, 1
        ADD r2, r2, 1 | NOP
        LOAD r3, r0, 0 | ADD r3, r3, 1
        LOAD r4, r0, 0 | ADD r3, r3, 1 | TGET r4, t1
        ADD r1, r1, 1 |
        ADD r1, r1, 1 | .data 0
        @9 NOP
        QUIT
