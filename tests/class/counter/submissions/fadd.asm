; Counts by FADD, between whose read and write no step comes. No lock is needed.
        .slim 1
        .entry count
        .entry count
        .data 0                 ; word 0: the lock, free while it is full
        .data 0                 ; word 1: the count
        .fill 2, 0, 1              ; words 2 and 3: mine

count:  LIT r4, 4
        LIT r5, 1
more:   ADD r2, r5, 0
        FADD.N r2, r0, 1 | SUB.T r4, r4, 1
        SKIP NE, 0, more
        QUIT
