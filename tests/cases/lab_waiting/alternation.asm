; Strict alternation: each gives the turn to the other one.
        .slim 1
        .entry zero
        .entry one
        .data 0                 ; turn: of processor 0
        .data 0, 0              ; of processor 1
zero:   LOAD.S r0, r0, 0
        STORE.S r0, r0, 1
        SKIP ALWAYS, 0, zero
one:    LOAD.S r0, r0, 1
        STORE.S r0, r0, 0
        SKIP ALWAYS, 0, one
