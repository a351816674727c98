; Each stream adds its number and starts the next one. The last one stores the sum.
        .slim 4
        .entry start
        .data 0, 0              ; result
        .data 1                 ; n1
        .data 2                 ; n2
        .data 3                 ; n3
        .data 4                 ; n4
        .data 0                 ; part
        .data 0, 0              ; ready

start:  LIT r1, 8               ; the address of a number
next:   LOAD.N r2, r1, 0
        FADD.N r2, r0, 5
        SUB.T r0, r1, 31
        SKIP GT, 0, last        ; that was the fourth one
        LIT r2, 1
        RESERVE r3, r2
        TLIT t1, next
        ADD r1, r1, 8
        CREATE t1, r1
        QUIT
last:   LOAD.N r2, r0, 5
        STORE.S r2, r0, 0
        QUIT
