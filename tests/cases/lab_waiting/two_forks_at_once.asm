; Three philosophers in a row, each of whom takes all forks at once or waits for a call: the one between has two neighbours.
; The word table has who eats (1, 2, 4) and whether the one between is hungry (8); it is empty while somebody changes it.
        .slim 1
        .entry left
        .entry between
        .entry right
        .data 0                 ; table
        .data 0, 0              ; call: of the one between
        .data 0, 0              ; of the left one
        .data 0, 0              ; of the right one
left:   LIT r3, 1
        LIT r4, 16              ; the address of my call
        LIT r5, 16              ; my hunger
        SKIP ALWAYS, 0, hungry
right:  LIT r3, 4
        LIT r4, 24
        LIT r5, 32
hungry: LOAD.S r1, r0, 0 | SUB.T r0, r0, 0
        AND.T r0, r1, 2
        OR r2, r1, r5 | SKIP NE, 0, starve
        OR r2, r1, r3
        STORE.S r2, r0, 0 | SUB r2, r2, r2 | SKIP ALWAYS, 0, eat
starve: STORE.S r2, r0, 0 | SUB r2, r2, r2
        LOAD.S r0, r4, 0        ; waits for its call
eat:    LOAD.S r1, r0, 0 | SUB.T r0, r0, 0
        XOR r1, r1, r3
        AND r2, r1, 13
        SUB.T r2, r2, 8
        SKIP NE, 0, done
        XOR r1, r1, 10
        STORE.S r0, r0, 1       ; calls the one between
done:   STORE.S r1, r0, 0 | SUB.T r1, r0, 0
        ADD r2, r0, 0 | SKIP ALWAYS, 0, hungry
between: LOAD.S r1, r0, 0 | SUB.T r0, r0, 0
        AND.T r0, r1, 5
        ADD r2, r1, 8 | SKIP NE, 0, wait
        ADD r2, r1, 2
        STORE.S r2, r0, 0 | SUB r2, r2, r2 | SKIP ALWAYS, 0, dine
wait:   STORE.S r2, r0, 0 | SUB r2, r2, r2
        LOAD.S r0, r0, 1        ; waits for its call
dine:   LOAD.S r1, r0, 0 | SUB.T r0, r0, 0
        XOR r1, r1, 2
        AND.T r0, r1, 16
        SKIP EQ, 0, other
        XOR r1, r1, 17
        STORE.S r0, r0, 2       ; calls the left one
other:  LIT r2, 32
        AND.T r2, r1, r2
        SKIP EQ, 0, over
        LIT r2, 36
        XOR r1, r1, r2
        STORE.S r0, r0, 3       ; calls the right one
over:   STORE.S r1, r0, 0 | SUB.T r1, r0, 0
        ADD r2, r0, 0 | SKIP ALWAYS, 0, between
