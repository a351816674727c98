; Processor 1 asks again and again whether there is a token, and nobody counts.
        .slim 1
        .entry inside
        .entry poll
        .data 1
        .data 0, 0
        .data 0
poll:   TAGGET r1, r0, 1
        SUB.T r0, r1, 0
        SKIP EQ, 0, poll
        LOAD.S r0, r0, 1
        LIT r5, 1
inside: LIT r3, 1
        FADD.N r3, r0, 2
        SUB r3, r0, 1
counted: FADD.N r3, r0, 2
        SUB.T r0, r5, 1
        SKIP EQ, 0, end
        STORE.S r0, r0, 1
end:    QUIT
