; Strict alternation, and processor 1 stays outside.
        .slim 1
        .entry zero
        .entry one
        .data 0                 ; turn: of processor 0
        .data 0, 0              ; of processor 1
zero:   LOAD.S r0, r0, 0
        STORE.S r0, r0, 1
        SKIP ALWAYS, 0, zero
one:    SKIP ALWAYS, 0, one
