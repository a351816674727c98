; Who pops takes the lock, and waits at the slot until it is full.
        .slim 1
        .entry push1
        .entry push2
        .entry pop
        .entry pop
        .data 0, 0              ; slot0
        .data 0, 0              ; slot1
        .data 0                 ; top
        .data 0                 ; lock
        .data 5                 ; first
        .data 7                 ; second
        .data 0                 ; popped

push1:  LOAD.N r1, r0, 4
        SKIP ALWAYS, 0, push
push2:  LOAD.N r1, r0, 5
push:   LOAD.S r0, r0, 3
        LOAD.N r2, r0, 2
        SHL r3, r2, 3
        STORE.S r1, r3, 0
        ADD r2, r2, 1
        STORE.N r2, r0, 2
        STORE.S r0, r0, 3
        QUIT

pop:    LOAD.S r0, r0, 3
        LOAD.N r2, r0, 2
        SUB.T r2, r2, 1
        SKIP GE, 0, there
        ADD r2, r0, 0           ; the next number comes to the first slot
there:  SHL r3, r2, 3
        LOAD.S r1, r3, 0
        STORE.N r2, r0, 2
        STORE.S r0, r0, 3
        FADD.N r1, r0, 6
        QUIT
