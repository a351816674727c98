; The third takes one number, and forgets the other.
        .slim 1
        .entry first
        .entry second
        .entry take
        .data 0, 0              ; word 0: the mailbox, empty
        .data 0                 ; word 1: the sum
        .data 3                 ; word 2: the first number
        .data 4                 ; word 3: the second number
        .fill 2, 0, 1           ; words 4 and 5: mine

first:  LOAD.N r1, r0, 2
        STORE.S r1, r0, 0       ; waits until the mailbox is empty, and fills it
        QUIT
second: LOAD.N r1, r0, 3
        STORE.S r1, r0, 0
        QUIT
take:   LOAD.S r1, r0, 0
        STORE.N r1, r0, 1
        QUIT
