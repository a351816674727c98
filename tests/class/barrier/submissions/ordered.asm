; What belongs to the barrier stands first. The gate has the number of the last barrier that both have reached.
        .slim 1
        .entry first
        .entry second
        .data 0                 ; arrived
        .data 0, 0              ; gate
        .data 10                ; right
        .data 1                 ; left

first:  LIT r8, 24
        LIT r9, 16
        SKIP ALWAYS, 0, round
second: LIT r8, 16
        LIT r9, 24
round:  LOAD.N r1, r8, 0
        LOAD.N r2, r9, 0
        ADD r1, r1, r2
pass:   ADD r7, r7, 1           ; the number of this barrier
        LIT r3, 1
        FADD.N r3, r0, 0
        SUB.T r0, r3, 0
        SKIP EQ, 0, hold
        STORE.N r0, r0, 0
        STORE.N r7, r0, 1 | SKIP ALWAYS, 0, go
hold:   LOAD.N r3, r0, 1
        SUB.T r0, r3, r7
        SKIP NE, 0, hold
go:     SUB.T r0, r7, 2
        SKIP EQ, 0, round       ; both have written, so both may read
        STORE.N r1, r8, 0
        SUB.T r0, r7, 1
        SKIP EQ, 0, pass        ; both have read
        QUIT
