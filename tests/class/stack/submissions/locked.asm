; All by one lock. Who finds the stack empty gives the lock back and tries again.
        .slim 1
        .entry push1
        .entry push2
        .entry pop
        .entry pop
        .data 0, 0              ; slot0
        .data 0, 0              ; slot1
        .data 0                 ; top
        .data 0                 ; lock
        .data 5                 ; first
        .data 7                 ; second
        .data 0                 ; popped

push1:  LIT r4, 32              ; the address of my number
        SKIP ALWAYS, 0, push
push2:  LIT r4, 40
push:   LOAD.S r0, r0, 3
        LOAD.N r2, r0, 2
        LOAD.N r1, r4, 0
        SHL r3, r2, 3           ; the address of the slot
        STORE.N r1, r3, 0
        ADD r2, r2, 1
        STORE.N r2, r0, 2
        STORE.S r0, r0, 3
        QUIT

pop:    LOAD.S r0, r0, 3
        LOAD.N r2, r0, 2
        SUB.T r2, r2, 1
        SKIP GE, 0, there
        STORE.S r0, r0, 3
        SKIP ALWAYS, 0, pop
there:  SHL r3, r2, 3
        LOAD.N r1, r3, 0
        STORE.N r2, r0, 2
        STORE.S r0, r0, 3
        FADD.N r1, r0, 6
        QUIT
