; The first to arrive closes the gate, and the last opens it. Who is fast closes it before the other one has gone on.
        .slim 1
        .entry first
        .entry second
        .data 1                 ; left
        .data 10                ; right
        .data 0                 ; arrived
        .data 0, 0              ; gate: open while it is full

first:  LIT r9, 8
        SKIP ALWAYS, 0, begin
second: LIT r8, 8
begin:  TLIT t1, pass
        LIT r6, 2
round:  LOAD.N r1, r8, 0
        LOAD.N r2, r9, 0
        ADD r1, r1, r2 | CALL t1, t2
        STORE.N r1, r8, 0 | SUB.T r6, r6, 1
        SKIP EQ, 0, done
        CALL t1, t2
        SKIP ALWAYS, 0, round
done:   QUIT

pass:   LIT r3, 1
        FADD.N r3, r0, 2
        SUB.T r0, r3, 1
        SKIP EQ, 0, last
        TAGSET r0, r0, 3
        SKIP ALWAYS, 0, hold
last:   STORE.N r0, r0, 2
        STORE.N r0, r0, 3
hold:   LOAD.F r3, r0, 3 | JUMP ALWAYS, 0, t2
