; Target registers that hold what is not usual: t1 names no handler, and t0 is 0, which is a handler at word 0
        .slim 2
        .entry go
        .entry other
        .data 0
go:     TLIT t1, 4294967295
        TLIT t0, 0
        LOAD.N r1, r0, 9
        QUIT
other:  TLIT t1, started
        LIT r2, 1
        RESERVE r3, r0
        RESERVE r3, r2
        CREATE t1, r0
        QUIT
started: QUIT
