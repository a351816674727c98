; The writer counts by FADD before the change, and by STORE after it; it stores one number.
        .slim 1
        .entry write
        .entry read1
        .entry read2
        .data 0                 ; the sequence number
        .data 5                 ; the pair
        .data 5
        .fill 2, 0, 1           ; what processor 1 has read
        .fill 2, 0, 1           ; what processor 2 has read

write:  LIT r1, 1
        FADD.N r1, r0, 0        ; odd: a change begins
        LOAD.N r2, r0, 1
        ADD r2, r2, 1
        STORE.N r2, r0, 1
        LIT r1, 1
        LOAD.N r1, r0, 0
        ADD r1, r1, 1
        STORE.N r1, r0, 0       ; even
        QUIT

; r7: where the reader puts what it has read
read1:  LIT r7, 24
        SKIP ALWAYS, 0, read
read2:  LIT r7, 40
read:   LOAD.N r1, r0, 0
        AND.T r0, r1, 1
        SKIP NE, 0, read        ; odd: a change is under way
        LOAD.N r5, r0, 1
        LOAD.N r6, r0, 2
        LOAD.N r2, r0, 0
        SUB.T r0, r1, r2
        SKIP NE, 0, read        ; a change came between: reads again
        STORE.N r5, r7, 0
        STORE.N r6, r7, 1
        QUIT
