; A number goes from hand to hand through the first slot.
        .slim 1
        .entry push1
        .entry push2
        .entry pop
        .entry pop
        .data 0, 0              ; slot0
        .data 0, 0              ; slot1
        .data 0                 ; top
        .data 0                 ; lock
        .data 5                 ; first
        .data 7                 ; second
        .data 0                 ; popped

push1:  LOAD.N r1, r0, 4
        STORE.S r1, r0, 0
        QUIT
push2:  LOAD.N r1, r0, 5
        STORE.S r1, r0, 0
        QUIT
pop:    LOAD.S r1, r0, 0
        FADD.N r1, r0, 6
        QUIT
