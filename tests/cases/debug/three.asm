; one processor adds to word 0 at each step, one stores to word 1 after each 800 steps and more, and one empties word 2
; and fills it again, some hundred steps apart
        .slim 2
        .entry add
        .entry store
        .entry empty
add:    FADD.N r1, r0, 0 | SKIP ALWAYS, 0, -1
store:  LIT r2, 400
wait:   SUB.T r2, r2, 1
        SKIP NE, 0, wait
        STORE.N r1, r0, 1 | ADD r1, r1, 1
        SKIP ALWAYS, 0, store
empty:  LIT r2, 150
full:   SUB.T r2, r2, 1
        SKIP NE, 0, full
        LOAD.S r3, r0, 2
        LIT r2, 90
hole:   SUB.T r2, r2, 1
        SKIP NE, 0, hole
        STORE.S r3, r0, 2
        SKIP ALWAYS, 0, empty
        .data 0
        .data 0
        .data 5
