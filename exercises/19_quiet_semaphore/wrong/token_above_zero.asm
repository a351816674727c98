; Puts a token there if the old count was above 0.
        .slim 1
        .entry enter
        .entry enter
        .data 1                 ; the free places, less those who wait
        .data 0, 0              ; a token for one who waits
        .data 0                 ; how many are in the room

enter:  SUB r1, r0, 1
        FADD.N r1, r0, 0        ; takes a place, or counts as one who waits
        SUB.T r0, r1, 0
        SKIP GT, 0, inside      ; a place was free
        LOAD.S r0, r0, 1        ; waits for a token

inside: LIT r3, 1               ; in the room
        FADD.N r3, r0, 2
        SUB r3, r0, 1
counted: FADD.N r3, r0, 2

        LIT r1, 1
        FADD.N r1, r0, 0        ; releases the place
        SUB.T r0, r1, 0
        SKIP LE, 0, end
        STORE.S r0, r0, 1       ; a token for one who does
end:    QUIT
