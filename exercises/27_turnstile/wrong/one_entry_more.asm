; One .entry line too many.
        .slim 1
        .entry read
        .entry read
        .entry read
        .entry write
        .data 0                 ; the news
        .data 0                 ; the room
        .data 0                 ; how many readers are in the room
        .data 0                 ; the turnstile
        .data 2                 ; what the writer brings
        .data 0                 ; the sum of what both readers have read

read:   LOAD.S r0, r0, 3        ; goes through the turnstile
        STORE.S r0, r0, 3
        LOAD.S r1, r0, 2        ; takes the count of readers
        SUB.T r0, r1, 0
        ADD r1, r1, 1 | SKIP NE, 0, enter
        LOAD.S r0, r0, 1        ; the first one takes the room for all
enter:  STORE.S r1, r0, 2

        LOAD.N r2, r0, 0        ; reads the news

        LOAD.S r1, r0, 2
        SUB.T r1, r1, 1
        SKIP NE, 0, leave
        STORE.S r0, r0, 1       ; the last one releases it
leave:  STORE.S r1, r0, 2 | SUB.T r0, r2, 0
        SKIP EQ, 0, read        ; no news yet: comes again
        FADD.N r2, r0, 5        ; adds what it has read
        QUIT

write:  LOAD.S r0, r0, 3        ; keeps the turnstile: no reader comes in any more
        LOAD.S r0, r0, 1        ; takes the room
        LIT r1, 1
        STORE.N r1, r0, 0       ; half of the news
        LOAD.N r1, r0, 4
        STORE.N r1, r0, 0       ; all of it
        STORE.S r0, r0, 1       ; releases the room
        STORE.S r0, r0, 3       ; and the turnstile
        QUIT
