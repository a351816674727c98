; Four streams of one processor add to one word by FADD, which no other step can come between. They add to a second
; word too, by LOAD.N, ADD and STORE.N: what another stream stores there between these is lost.
; Look at: the two words at the end, and the two LOAD.N that find the same number.
        .slim 4
        .entry start
        .data 0                 ; word 0: the sum by FADD
        .data 0                 ; word 1: the sum by LOAD.N and STORE.N

start:  LIT r2, 3
        RESERVE r3, r2          ; r3: how many more streams there may be
        TLIT t1, worker
        LIT r1, 1
more:   SUB.T r3, r3, 1 | CREATE t1, r1         ; a stream at worker, with this r1
        SKIP NE, 0, more
worker: LOAD.N r2, r0, 1
        ADD r2, r2, r1
        STORE.N r2, r0, 1       ; over what others stored since the LOAD.N
        FADD.N r1, r0, 0
        QUIT
