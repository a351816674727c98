; Each fills a word for the other one, and waits for its own. Nobody polls.
        .slim 1
        .entry first
        .entry second
        .data 1                 ; left
        .data 10                ; right
        .data 0                 ; arrived: not needed
        .data 0, 0              ; gate: from the first to the second
        .data 0, 0              ; back: from the second to the first

first:  LIT r9, 8
        LIT r4, 24
        LIT r5, 32
        SKIP ALWAYS, 0, begin
second: LIT r8, 8
        LIT r4, 32
        LIT r5, 24
begin:  LIT r6, 2
round:  LOAD.N r1, r8, 0
        LOAD.N r2, r9, 0
        ADD r1, r1, r2
        STORE.S r0, r4, 0
        LOAD.S r0, r5, 0
        STORE.N r1, r8, 0 | SUB.T r6, r6, 1
        SKIP EQ, 0, done
        STORE.S r0, r4, 0
        LOAD.S r0, r5, 0
        SKIP ALWAYS, 0, round
done:   QUIT
