; One .entry line too many.
        .slim 1
        .trap handler
        .entry start
        .entry start
        .entry start
        .data 0                 ; the sum
        .data 0                 ; the bad pointers
        .data 40                ; a pointer
        .data 41                ; a pointer
        .data 48                ; a pointer
        .data 5                 ; a number
        .data 6                 ; a number

start:  LIT r5, 3               ; pointers to follow
next:   LOAD.N r1, r4, 2        ; r1: the pointer; r4: how far it is from the first
        LOAD.N r2, r1, 0        ; follows it: this may trap
        FADD.N r2, r0, 0
        ADD r4, r4, 8
        SUB.T r5, r5, 1
        SKIP NE, 0, next
        QUIT

handler: LIT r2, 0              ; what a bad pointer leads to
        LIT r6, 1
        FADD.N r6, r0, 1        ; counts it
        TGET r6, t0
        ADD r6, r6, 1           ; after the word that trapped
        TSET t0, r6
        XCHG t0                 ; goes back; the next trap goes on after this word
        SKIP ALWAYS, 0, handler
