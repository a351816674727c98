; The third asks for the tags of the mailbox until there is a number, and empties it itself.
        .slim 1
        .entry first
        .entry second
        .entry take
        .data 0, 0              ; word 0: the mailbox, empty
        .data 0                 ; word 1: the sum
        .data 3                 ; word 2: the first number
        .data 4                 ; word 3: the second number
        .fill 2, 0, 1           ; words 4 and 5: mine

first:  LOAD.N r1, r0, 2
        STORE.S r1, r0, 0       ; waits until the mailbox is empty, and fills it
        QUIT
second: LOAD.N r1, r0, 3
        STORE.S r1, r0, 0
        QUIT
take:   TAGGET r1, r0, 0
        AND.T r1, r1, 1
        SKIP EQ, 0, take        ; empty: asks again
        LOAD.N r1, r0, 0
        TAGSET r0, r0, 0        ; empties it
        ADD r3, r3, r1
        ADD r4, r4, 1
        SUB.T r0, r4, 2
        SKIP NE, 0, take
        STORE.N r3, r0, 1
        QUIT
