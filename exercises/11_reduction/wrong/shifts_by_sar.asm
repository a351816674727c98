; Shifts by SAR, and does not wait for the others.
        .slim 4
        .entry start
        .data 0                 ; the sum
        .data 0                 ; how many have added
        .data 4                 ; the number of stream 0
        .data 8                 ; the number of stream 1
        .data 2                 ; the number of stream 2
        .data 6                 ; the number of stream 3
        .data 0                 ; the mean

start:  LIT r2, 3
        RESERVE r3, r2          ; r3: 3 more streams
        TLIT t1, add
more:   CREATE t1, r3           ; a stream with r1 = 3, 2, 1
        SUB.T r3, r3, 1
        SKIP NE, 0, more
                                ; and this one goes on with r1 = 0
add:    SHL r2, r1, 3           ; r1: which number is mine
        LOAD.N r3, r2, 2
        FADD.N r3, r0, 0        ; adds it
        LIT r4, 1
        FADD.N r4, r0, 1        ; r4: how many have added before me
        LOAD.N r5, r0, 0        ; the last one: the sum is complete
        SAR r5, r5, 2
        STORE.N r5, r0, 6
end:    QUIT
