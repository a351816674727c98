; Counts all arrivals, and looks 40 times whether the other one is there, which is surely enough.
        .slim 1
        .entry first
        .entry second
        .data 1                 ; left
        .data 10                ; right
        .data 0                 ; arrived
        .data 0, 0              ; gate

first:  LIT r9, 8
        SKIP ALWAYS, 0, round
second: LIT r8, 8
round:  LOAD.N r1, r8, 0
        LOAD.N r2, r9, 0
        ADD r1, r1, r2
pass:   LIT r3, 1
        FADD.N r3, r0, 2 | ADD r7, r7, 2
        LIT r4, 40
look:   LOAD.N r3, r0, 2
        SUB.T r0, r3, r7
        SKIP GE, 0, go
        SUB.T r4, r4, 1
        SKIP NE, 0, look
go:     SUB.T r0, r7, 4
        SKIP EQ, 0, round
        STORE.N r1, r8, 0
        SUB.T r0, r7, 2
        SKIP EQ, 0, pass
        QUIT
