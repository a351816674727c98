; Who has pushed fills any, and who pops empties it first. So nobody asks in vain.
        .slim 1
        .entry push1
        .entry push2
        .entry pop
        .entry pop
        .data 0                 ; top
        .data 0                 ; lock
        .data 0, 0              ; any: full while there is a number that nobody has asked for
        .data 0, 0              ; slot0
        .data 0, 0              ; slot1
        .data 5                 ; first
        .data 7                 ; second
        .data 0                 ; popped

push1:  LOAD.N r1, r0, 5
        SKIP ALWAYS, 0, push
push2:  LOAD.N r1, r0, 6
push:   LOAD.S r0, r0, 1
        LOAD.N r2, r0, 0
        SHL r3, r2, 3
        STORE.N r1, r3, 3
        ADD r2, r2, 1
        STORE.N r2, r0, 0
        STORE.S r0, r0, 1
        STORE.S r0, r0, 2
        QUIT

pop:    LOAD.S r0, r0, 2
        LOAD.S r0, r0, 1
        LOAD.N r2, r0, 0
        SUB r2, r2, 1
        SHL r3, r2, 3
        LOAD.N r1, r3, 3
        STORE.N r2, r0, 0
        STORE.S r0, r0, 1
        FADD.N r1, r0, 7
        QUIT
