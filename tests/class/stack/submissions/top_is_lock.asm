; Who reads top leaves it empty, so nobody else comes to the stack until it is stored again.
        .slim 1
        .entry push1
        .entry push2
        .entry pop
        .entry pop
        .data 0, 0              ; slot0
        .data 0, 0              ; slot1
        .data 0                 ; top
        .data 0                 ; lock
        .data 5                 ; first
        .data 7                 ; second
        .data 0                 ; popped

push1:  LOAD.N r1, r0, 4
        SKIP ALWAYS, 0, push
push2:  LOAD.N r1, r0, 5
push:   LOAD.S r2, r0, 2
        SHL r3, r2, 3
        ADD r2, r2, 1
        STORE.N r1, r3, 0
        STORE.S r2, r0, 2
        QUIT

pop:    LOAD.S r2, r0, 2
        SUB.T r2, r2, 1
        SKIP LT, 0, none
        SHL r3, r2, 3
        LOAD.N r1, r3, 0
        STORE.S r2, r0, 2
        FADD.N r1, r0, 6
        QUIT
none:   STORE.S r0, r0, 2       ; it was 0
        SKIP ALWAYS, 0, pop
