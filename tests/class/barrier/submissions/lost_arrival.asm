; Counts the arrivals by LOAD, ADD and STORE.
        .slim 1
        .entry first
        .entry second
        .data 1                 ; left
        .data 10                ; right
        .data 0                 ; arrived
        .data 0, 0              ; gate

first:  LIT r9, 8
        SKIP ALWAYS, 0, round
second: LIT r8, 8
round:  LOAD.N r1, r8, 0
        LOAD.N r2, r9, 0
        ADD r1, r1, r2
        LOAD.N r3, r0, 2 | ADD r7, r7, 2
        ADD r3, r3, 1
        STORE.N r3, r0, 2
read:   LOAD.N r3, r0, 2
        SUB.T r0, r3, r7
        SKIP LT, 0, read
        STORE.N r1, r8, 0
        SUB.T r0, r7, 6
        SKIP EQ, 0, done
        LOAD.N r3, r0, 2 | ADD r7, r7, 2
        ADD r3, r3, 1
        STORE.N r3, r0, 2
wrote:  LOAD.N r3, r0, 2
        SUB.T r0, r3, r7
        SKIP LT, 0, wrote
        SKIP ALWAYS, 0, round
done:   QUIT
