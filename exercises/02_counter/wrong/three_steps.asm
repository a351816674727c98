; Adds by LOAD, ADD and STORE: others come between.
        .slim 1
        .entry count
        .entry count
        .entry count
        .data 0                 ; the count

count:  LIT r2, 2
again:  LOAD.N r1, r0, 0
        ADD r1, r1, 1
        STORE.N r1, r0, 0
        SUB.T r2, r2, 1
        SKIP NE, 0, again
        QUIT
