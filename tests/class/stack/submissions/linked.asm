; A list: top is the number that lies on top, and each number knows which one lies below it.
        .slim 1
        .entry push1
        .entry push2
        .entry pop
        .entry pop
        .data 0, 0              ; slot0: not needed
        .data 0, 0              ; slot1: not needed
        .data 0                 ; top: 0 for none, 1 for the first number, 2 for the second
        .data 0                 ; lock
        .data 5                 ; first
        .data 7                 ; second
        .data 0                 ; popped
        .data 0                 ; below1: what lies below the first number
        .data 0                 ; below2: what lies below the second number

push1:  LIT r1, 1
        SKIP ALWAYS, 0, push
push2:  LIT r1, 2
push:   LOAD.S r0, r0, 3
        LOAD.N r2, r0, 2
        SHL r3, r1, 3
        STORE.N r2, r3, 6       ; word 7 or 8
        STORE.N r1, r0, 2
        STORE.S r0, r0, 3
        QUIT

pop:    LOAD.S r0, r0, 3
        LOAD.N r2, r0, 2
        SUB.T r0, r2, 0
        SKIP NE, 0, there
        STORE.S r0, r0, 3
        SKIP ALWAYS, 0, pop
there:  SHL r3, r2, 3
        LOAD.N r2, r3, 6
        STORE.N r2, r0, 2
        STORE.S r0, r0, 3
        LOAD.N r1, r3, 3        ; word 4 or 5
        FADD.N r1, r0, 6
        QUIT
