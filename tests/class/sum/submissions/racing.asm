; Two streams add to part by LOAD, ADD and STORE; who comes last stores the sum.
        .slim 2
        .entry start
        .data 0, 0              ; result
        .data 1                 ; n1
        .data 2                 ; n2
        .data 3                 ; n3
        .data 4                 ; n4
        .data 0                 ; part
        .data 0, 0              ; ready

start:  LIT r2, 1
        RESERVE r3, r2
        TLIT t1, work
        LIT r1, 8
        CREATE t1, r1
        LIT r1, 24
work:   LOAD.N r2, r1, 0
        LOAD.N r3, r1, 1
        ADD r2, r2, r3
        LOAD.N r3, r0, 5
        ADD r3, r3, r2
        STORE.N r3, r0, 5
        LIT r2, 1
        FADD.N r2, r0, 6
        SUB.T r0, r2, 1
        SKIP NE, 0, done
        LOAD.N r2, r0, 5
        STORE.N r2, r0, 0
done:   QUIT
