; Morris's mutual exclusion without starvation: two rooms before the critical section, whose doors are never open at the
; same time. SUB.T r0, r0, 0 beside a reference makes a code that is always the same, so that old codes are forgotten.
        .slim 1
        .entry enter
        .entry enter
        .entry enter
        .data 0                 ; first: how many are in the first room
        .data 0                 ; door: of the second room
        .data 0                 ; second: how many are in the second room
        .data 0, 0              ; inner: the door of the critical section
enter:  LOAD.S r1, r0, 0
        ADD r1, r1, 1
        STORE.S r1, r0, 0 | SUB r1, r1, r1
        LOAD.S r0, r0, 1 | SUB.T r0, r0, 0
        LOAD.N r1, r0, 2
        ADD r1, r1, 1
        STORE.N r1, r0, 2 | SUB.T r0, r0, 0
        LOAD.S r1, r0, 0
        SUB.T r1, r1, 1
        STORE.S r1, r0, 0 | SUB r1, r1, r1 | SKIP NE, 0, more
        STORE.S r0, r0, 3 | SUB.T r0, r0, 0 | SKIP ALWAYS, 0, wait
more:   STORE.S r0, r0, 1 | SUB.T r0, r0, 0
wait:   LOAD.S r0, r0, 3 | SUB.T r0, r0, 0
        LOAD.N r1, r0, 2
        SUB.T r1, r1, 1
        STORE.N r1, r0, 2 | SUB r1, r1, r1 | SKIP NE, 0, next
        STORE.S r0, r0, 1 | SUB.T r0, r0, 0 | SKIP ALWAYS, 0, enter
next:   STORE.S r0, r0, 3 | SUB.T r0, r0, 0 | SKIP ALWAYS, 0, enter
