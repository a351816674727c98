; Looks whether the mailbox is empty before it stores; the second lets the first go before it.
        .slim 1
        .entry first
        .entry second
        .entry take
        .data 0, 0              ; word 0: the mailbox, empty
        .data 0                 ; word 1: the sum
        .data 3                 ; word 2: the first number
        .data 4                 ; word 3: the second number
        .fill 2, 0, 1           ; words 4 and 5: mine

second: LIT r4, 15
after:  SUB.T r4, r4, 1
        SKIP NE, 0, after
        LOAD.N r1, r0, 3
        SKIP ALWAYS, 0, look
first:  LOAD.N r1, r0, 2
look:   TAGGET r2, r0, 0
        AND.T r2, r2, 1
        SKIP NE, 0, look        ; full: looks again
        STORE.N r1, r0, 0
        QUIT
take:   LOAD.S r1, r0, 0
        LOAD.S r2, r0, 0
        ADD r1, r1, r2
        STORE.N r1, r0, 1
        QUIT
