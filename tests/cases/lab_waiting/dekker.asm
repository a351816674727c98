; Dekker's algorithm, again and again: who has not the turn steps back while both want in.
        .slim 1
        .entry rest0
        .entry rest1
        .data 0                 ; the flag of processor 0
        .data 0                 ; the flag of processor 1
        .data 0                 ; turn: 0 or 1
rest0:  LIT r4, 1               ; does something else
try0:   STORE.N r4, r0, 0
ask0:   LOAD.N r6, r0, 1
        SUB.T r6, r6, 0
        SKIP EQ, 0, in0
        LOAD.N r6, r0, 2
        SUB.T r6, r6, 0
        SKIP EQ, 0, ask0
        STORE.N r0, r0, 0       ; steps back
back0:  LOAD.N r6, r0, 2
        SUB.T r6, r6, 0
        SKIP EQ, 0, try0
        SKIP ALWAYS, 0, back0
in0:    STORE.N r4, r0, 2 | SUB.T r6, r0, 0
        STORE.N r0, r0, 0 | SKIP ALWAYS, 0, rest0
rest1:  LIT r4, 1
try1:   STORE.N r4, r0, 1
ask1:   LOAD.N r6, r0, 0
        SUB.T r6, r6, 0
        SKIP EQ, 0, in1
        LOAD.N r6, r0, 2
        SUB.T r6, r6, 1
        SKIP EQ, 0, ask1
        STORE.N r0, r0, 1
back1:  LOAD.N r6, r0, 2
        SUB.T r6, r6, 1
        SKIP EQ, 0, try1
        SKIP ALWAYS, 0, back1
in1:    STORE.N r0, r0, 2 | SUB.T r6, r0, 0
        STORE.N r0, r0, 1 | SKIP ALWAYS, 0, rest1
