; The writer takes the room a second time where it releases it; the readers take nothing.
        .slim 1
        .entry write
        .entry read1
        .entry read2
        .fill 2, 5, 1           ; the pair
        .data 0                 ; the room
        .data 0                 ; how many readers
        .fill 2, 0, 1           ; what processor 1 has read
        .fill 2, 0, 1           ; what processor 2 has read

write:  LOAD.S r0, r0, 2
        LOAD.N r1, r0, 0
        ADD r1, r1, 1
        STORE.N r1, r0, 0
        STORE.N r1, r0, 1
        LOAD.S r0, r0, 2
        QUIT

; r7: where the reader puts what it has read
read1:  LIT r7, 32
        SKIP ALWAYS, 0, read
read2:  LIT r7, 48
read:   LOAD.N r5, r0, 0
        LOAD.N r6, r0, 1
        STORE.N r5, r7, 0
        STORE.N r6, r7, 1
        QUIT
