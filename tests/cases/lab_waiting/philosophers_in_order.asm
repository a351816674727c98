; Three philosophers, each of whom takes the lower fork first.
        .slim 1
        .entry zero
        .entry one
        .entry two
        .fill 3, 0, 1           ; fork
zero:   LOAD.S r0, r0, 0
        LOAD.S r0, r0, 1
        STORE.S r0, r0, 1
        STORE.S r0, r0, 0 | SKIP ALWAYS, 0, zero
one:    LOAD.S r0, r0, 1
        LOAD.S r0, r0, 2
        STORE.S r0, r0, 2
        STORE.S r0, r0, 1 | SKIP ALWAYS, 0, one
two:    LOAD.S r0, r0, 0
        LOAD.S r0, r0, 2
        STORE.S r0, r0, 2
        STORE.S r0, r0, 0 | SKIP ALWAYS, 0, two
