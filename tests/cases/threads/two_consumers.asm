; One processor hands the numbers 1 to 8 through a full/empty word to two others, which take four each and add them up.
; Which of them gets which number is open.
        .slim 1
        .entry produce
        .entry consume
        .entry consume
        .data 0, 0              ; word 0: the slot, which is empty
        .data 0                 ; word 1: the sum of both

produce: LIT r1, 1
put:    STORE.S r1, r0, 0 | ADD r1, r1, 1
        SUB.T r0, r1, 9
        SKIP NE, 0, put
        QUIT

consume: LIT r3, 4
take:   LOAD.S r4, r0, 0 | SUB.T r3, r3, 1
        ADD r5, r5, r4
        SKIP NE, 0, take
        FADD.N r5, r0, 1
        QUIT
