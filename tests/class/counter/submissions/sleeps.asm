; The second sleeps until the first is surely done.
        .slim 1
        .entry count
        .entry late
        .data 0                 ; word 0: the lock, free while it is full
        .data 0                 ; word 1: the count
        .fill 2, 0, 1              ; words 2 and 3: mine

late:   LIT r5, 30
sleep:  SUB.T r5, r5, 1
        SKIP NE, 0, sleep
count:  LIT r4, 4
more:   LOAD.N r2, r0, 1
        ADD r2, r2, 1
        STORE.N r2, r0, 1 | SUB.T r4, r4, 1
        SKIP NE, 0, more
        QUIT
