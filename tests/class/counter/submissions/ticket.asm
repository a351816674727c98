; A ticket for each turn: word 2 is the next ticket, word 3 the one whose turn it is.
        .slim 1
        .entry count
        .entry count
        .data 0                 ; word 0: the lock, free while it is full
        .data 0                 ; word 1: the count
        .fill 2, 0, 1              ; words 2 and 3: mine

count:  LIT r4, 4
        LIT r5, 1
more:   ADD r2, r5, 0
        FADD.N r2, r0, 2        ; my ticket
wait:   LOAD.N r3, r0, 3
        SUB.T r0, r3, r2
        SKIP NE, 0, wait
        LOAD.N r3, r0, 1
        ADD r3, r3, 1
        STORE.N r3, r0, 1
        ADD r3, r2, 1
        STORE.N r3, r0, 3       ; the next one's turn
        SUB.T r4, r4, 1
        SKIP NE, 0, more
        QUIT
