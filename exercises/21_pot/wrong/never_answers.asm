; The cook does not say that the pot is filled.
        .slim 1
        .entry guest
        .entry guest
        .entry cook
        .data 0                 ; the lock of the pot
        .data 0                 ; the portions in the pot
        .data 0, 0              ; the bell: full when the cook is called
        .data 0, 0              ; the answer: full when the pot is filled
        .data 0                 ; the meals
        .data 2                 ; how often the cook comes

cook:   LOAD.N r7, r0, 5
wait:   LOAD.S r0, r0, 2        ; waits for the bell
        LIT r1, 2
        STORE.N r1, r0, 1       ; two portions
        SUB.T r7, r7, 1
        SKIP NE, 0, wait
        QUIT

guest:  LIT r7, 2               ; meals to eat

eat:    LOAD.S r0, r0, 0        ; takes the lock
        LOAD.N r1, r0, 1
        SUB.T r0, r1, 0
        SKIP NE, 0, take
        STORE.S r0, r0, 2       ; empty: rings the bell
        LOAD.S r0, r0, 3        ; waits for the answer
        LOAD.N r1, r0, 1
take:   SUB r1, r1, 1           ; takes one portion
        STORE.N r1, r0, 1
        STORE.S r0, r0, 0       ; releases the lock

        LIT r2, 1
        FADD.N r2, r0, 4        ; eats
        SUB.T r7, r7, 1
        SKIP NE, 0, eat
        QUIT
