; Both rounds in one: reads, waits at one barrier, and stores twice the sum.
        .slim 1
        .entry first
        .entry second
        .data 1                 ; left
        .data 10                ; right
        .data 0                 ; arrived
        .data 0, 0              ; gate

first:  LIT r9, 8
        SKIP ALWAYS, 0, begin
second: LIT r8, 8
begin:  LOAD.N r1, r8, 0
        LOAD.N r2, r9, 0
        ADD r1, r1, r2
        ADD r1, r1, r1
        LIT r3, 1
        FADD.N r3, r0, 2
hold:   LOAD.N r3, r0, 2
        SUB.T r0, r3, 2
        SKIP NE, 0, hold
        STORE.N r1, r8, 0
        QUIT
