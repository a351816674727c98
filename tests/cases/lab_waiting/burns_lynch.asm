; Burns' and Lynch's algorithm: processor 1 asks again and again for the flag of processor 0, and is never blocked.
        .slim 1
        .entry zero
        .entry one
        .data 0                 ; the flag of processor 0
        .data 0                 ; the flag of processor 1
zero:   LIT r4, 1
again:  STORE.N r4, r0, 0
ask:    LOAD.N r6, r0, 1
        SUB.T r6, r6, 0
        SKIP NE, 0, ask
        STORE.N r0, r0, 0 | SUB.T r6, r0, 0 | SKIP ALWAYS, 0, again
one:    LIT r4, 1
try:    STORE.N r0, r0, 1
look:   LOAD.N r6, r0, 0
        SUB.T r6, r6, 0
        SKIP NE, 0, look
        STORE.N r4, r0, 1
        LOAD.N r6, r0, 0
        SUB.T r6, r6, 0
        SKIP NE, 0, try
        STORE.N r0, r0, 1 | SUB.T r6, r0, 0 | SKIP ALWAYS, 0, try
