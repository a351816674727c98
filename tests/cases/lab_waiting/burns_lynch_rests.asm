; Burns' and Lynch's algorithm, and each does something else before it tries again.
        .slim 1
        .entry rest0
        .entry rest1
        .data 0                 ; the flag of processor 0
        .data 0                 ; the flag of processor 1
rest0:  LIT r4, 1               ; does something else
try0:   STORE.N r4, r0, 0
ask0:   LOAD.N r6, r0, 1
        SUB.T r6, r6, 0
        SKIP NE, 0, ask0
in0:    STORE.N r0, r0, 0 | SUB.T r6, r0, 0 | SKIP ALWAYS, 0, rest0
rest1:  LIT r4, 1
try1:   STORE.N r0, r0, 1
look:   LOAD.N r6, r0, 0
        SUB.T r6, r6, 0
        SKIP NE, 0, look
        STORE.N r4, r0, 1
        LOAD.N r6, r0, 0
        SUB.T r6, r6, 0
        SKIP NE, 0, try1
in1:    STORE.N r0, r0, 1 | SUB.T r6, r0, 0 | SKIP ALWAYS, 0, rest1
