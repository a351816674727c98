; A chain: each stream waits for the sum of those before it, adds its number, and hands the sum on.
        .slim 4
        .entry start
        .data 0, 0              ; result
        .data 1                 ; n1
        .data 2                 ; n2
        .data 3                 ; n3
        .data 4                 ; n4
        .data 0                 ; part
        .data 0, 0              ; ready
        .data 0                 ; link: the sum before the first number
        .fill 3, 0, 0           ; links: before the other ones

start:  LIT r2, 3
        RESERVE r3, r2
        TLIT t1, add
        LIT r1, 8
more:   ADD r1, r1, 8 | CREATE t1, r1
        SUB.T r3, r3, 1
        SKIP NE, 0, more
        LOAD.S r2, r1, 6        ; the last number is mine
        LOAD.N r3, r1, 0
        ADD r2, r2, r3
        STORE.S r2, r0, 0
        QUIT
add:    LOAD.S r2, r1, 6        ; six words after each number is its link
        LOAD.N r3, r1, 0
        ADD r2, r2, r3
        STORE.S r2, r1, 7
        QUIT
