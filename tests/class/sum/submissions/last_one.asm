; A stream for each number. Each adds to part by FADD and counts in ready; who comes last stores the sum. Nobody waits.
        .slim 4
        .entry start
        .data 0, 0              ; result
        .data 1                 ; n1
        .data 2                 ; n2
        .data 3                 ; n3
        .data 4                 ; n4
        .data 0                 ; part
        .data 0, 0              ; ready

start:  LIT r2, 3
        RESERVE r3, r2
        TLIT t1, work
        LIT r1, 8               ; the address of the first number
more:   ADD r1, r1, 8 | CREATE t1, r1
        SUB.T r3, r3, 1
        SKIP NE, 0, more        ; the fourth number is mine
work:   LOAD.N r2, r1, 0
        FADD.N r2, r0, 5
        LIT r3, 1
        FADD.N r3, r0, 6        ; how many were here before me
        SUB.T r0, r3, 3
        SKIP NE, 0, done
        LOAD.N r2, r0, 5
        STORE.N r2, r0, 0
done:   QUIT
