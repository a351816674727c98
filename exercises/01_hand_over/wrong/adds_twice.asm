; [16] is written by FADD alone, and twice, so it is not the number.
        .slim 1
        .entry give
        .entry take
        .data 0, 0              ; the box
        .data 7                 ; the number
        .data 0                 ; where it goes

give:   LOAD.N r1, r0, 1        ; reads [8]
        STORE.S r1, r0, 0       ; waits until the box is empty, and fills it
        QUIT

take:   LOAD.S r1, r0, 0
        ADD r2, r1, 0
        FADD.N r1, r0, 2        ; adds to [16]
        FADD.N r2, r0, 2        ; and again
        QUIT
