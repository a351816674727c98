; Each reader takes the room for itself.
        .slim 1
        .entry read
        .entry read
        .entry write
        .data 0                 ; the news
        .data 0                 ; the room
        .data 0                 ; how many readers are in the room
        .data 0                 ; the turnstile
        .data 2                 ; what the writer brings
        .data 0                 ; the sum of what both readers have read

read:   LOAD.S r0, r0, 1        ; takes the room
        LOAD.N r2, r0, 0        ; reads the news
        SUB.T r0, r2, 0
        STORE.S r0, r0, 1       ; releases it
        SKIP EQ, 0, read        ; no news yet: comes again
        FADD.N r2, r0, 5        ; adds what it has read
        QUIT

write:  LOAD.S r0, r0, 1        ; takes the room
        LIT r1, 1
        STORE.N r1, r0, 0       ; half of the news
        LOAD.N r1, r0, 4
        STORE.N r1, r0, 0       ; all of it
        STORE.S r0, r0, 1       ; releases it
        QUIT
