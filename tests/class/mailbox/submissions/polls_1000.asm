; The third asks 1000 times whether both numbers are there, which is surely enough.
        .slim 1
        .entry first
        .entry second
        .entry take
        .data 0, 0              ; word 0: the mailbox, empty
        .data 0                 ; word 1: the sum
        .data 3                 ; word 2: the first number
        .data 4                 ; word 3: the second number
        .fill 2, 0, 1           ; words 4 and 5: mine

first:  LOAD.N r1, r0, 2
        SKIP ALWAYS, 0, hand
second: LOAD.N r1, r0, 3
hand:   FADD.N r1, r0, 4        ; word 4: the sum so far
        LIT r1, 1
        FADD.N r1, r0, 5        ; word 5: how many have added to it
        QUIT
take:   LIT r4, 1000
poll:   LOAD.N r1, r0, 5
        SUB.T r0, r1, 2
        SKIP EQ, 0, there
        SUB.T r4, r4, 1
        SKIP NE, 0, poll
there:  LOAD.N r1, r0, 4
        STORE.N r1, r0, 1
        QUIT
