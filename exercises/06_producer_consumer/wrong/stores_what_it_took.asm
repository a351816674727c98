; The first number goes into the empty slot by STORE.N; the consumer stores the number that it took last, and not the sum.
        .slim 1
        .entry produce
        .entry consume
        .data 0, 0              ; the slot
        .data 0                 ; the sum
        .data 3                 ; n

produce: LOAD.N r1, r0, 2
        STORE.N r1, r0, 0       ; the slot is empty
next:   SUB.T r0, r1, 0
        SKIP EQ, 0, done
        SUB r1, r1, 1
        STORE.S r1, r0, 0
        SKIP ALWAYS, 0, next
done:   QUIT

consume: LOAD.S r2, r0, 0       ; waits for a number
        ADD r3, r3, r2
        SUB.T r0, r2, 0         ; was it the 0?
        SKIP NE, 0, consume
        STORE.N r2, r0, 1
        QUIT
