; The writer changes the pair by FADD, and takes no room.
        .slim 1
        .entry write
        .entry read1
        .entry read2
        .fill 2, 5, 1           ; the pair
        .data 0                 ; the room
        .data 0                 ; how many readers
        .fill 2, 0, 1           ; what processor 1 has read
        .fill 2, 0, 1           ; what processor 2 has read

write:  LIT r1, 1
        FADD.N r1, r0, 0
        LIT r1, 1
        FADD.N r1, r0, 1
        QUIT

; r7: where the reader puts what it has read
read1:  LIT r7, 32
        SKIP ALWAYS, 0, read
read2:  LIT r7, 48
read:   LOAD.S r1, r0, 3        ; takes the count of readers
        SUB.T r0, r1, 0
        SKIP NE, 0, enter
        LOAD.S r0, r0, 2        ; the first one takes the room for all
enter:  ADD r1, r1, 1
        STORE.S r1, r0, 3

        LOAD.N r5, r0, 0
        LOAD.N r6, r0, 1

        LOAD.S r1, r0, 3
        SUB.T r1, r1, 1
        SKIP NE, 0, leave
        STORE.S r0, r0, 2       ; the last one releases it
leave:  STORE.S r1, r0, 3
        STORE.N r5, r7, 0
        STORE.N r6, r7, 1
        QUIT
