; Peterson's algorithm, again and again: who waits asks again and again, and is never blocked.
        .slim 1
        .entry zero
        .entry one
        .data 0                 ; the flag of processor 0
        .data 0                 ; the flag of processor 1
        .data 0                 ; who came last
zero:   LIT r4, 1
again0: STORE.N r4, r0, 0
        STORE.N r0, r0, 2
ask0:   LOAD.N r6, r0, 1
        SUB.T r6, r6, 0
        SKIP EQ, 0, in0
        LOAD.N r6, r0, 2
        SUB.T r6, r6, 0
        SKIP EQ, 0, ask0
in0:    STORE.N r0, r0, 0 | SUB.T r6, r0, 0
        SKIP ALWAYS, 0, again0
one:    LIT r4, 1
again1: STORE.N r4, r0, 1
        STORE.N r4, r0, 2
ask1:   LOAD.N r6, r0, 0
        SUB.T r6, r6, 0
        SKIP EQ, 0, in1
        LOAD.N r6, r0, 2
        SUB.T r6, r6, 1
        SKIP EQ, 0, ask1
in1:    STORE.N r0, r0, 1 | SUB.T r6, r0, 0
        SKIP ALWAYS, 0, again1
