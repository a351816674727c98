; Asks whether the other one has come, but has read its number before.
        .slim 1
        .entry left
        .entry right
        .data 0, 0              ; processor 0 has come
        .data 0, 0              ; processor 1 has come
        .data 3                 ; the number of processor 0
        .data 4                 ; the number of processor 1
        .data 0                 ; what processor 0 has read
        .data 0                 ; what processor 1 has read

; r1: my own words, r2: those of the other processor
left:   LIT r1, 0
        LIT r2, 8
        SKIP ALWAYS, 0, double
right:  LIT r1, 8
        LIT r2, 0

double: LOAD.N r3, r1, 2        ; my number
        ADD r3, r3, r3
        STORE.N r3, r1, 2

        STORE.S r0, r1, 0       ; I have come
        LOAD.N r4, r2, 2
ask:    TAGGET r5, r2, 0        ; has the other one come?
        SUB.T r0, r5, 0
        SKIP EQ, 0, ask
        TAGSET r0, r2, 0

        STORE.N r4, r1, 4
        QUIT
