; Three processors meet: each brings a number and counts itself, and waits until all are counted; then each adds up what
; all have brought.
        .slim 1
        .entry one
        .entry two
        .entry three
        .data 0                 ; word 0: how many have come
        .data 0                 ; words 1 to 3: what they brought
        .data 0
        .data 0
        .data 0                 ; word 4: the sum of their sums

one:    LIT r1, 1
        STORE.N r1, r0, 1
        SKIP ALWAYS, 0, come
two:    LIT r1, 2
        STORE.N r1, r0, 2
        SKIP ALWAYS, 0, come
three:  LIT r1, 4
        STORE.N r1, r0, 3
come:   LIT r2, 1
        FADD.N r2, r0, 0
wait:   LOAD.N r3, r0, 0
        SUB.T r0, r3, 3
        SKIP NE, 0, wait
        LOAD.N r4, r0, 1
        LOAD.N r5, r0, 2
        LOAD.N r6, r0, 3 | ADD r4, r4, r5
        ADD r4, r4, r6
        FADD.N r4, r0, 4
        QUIT
