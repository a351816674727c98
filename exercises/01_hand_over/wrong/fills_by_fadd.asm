; The box is filled by FADD, not by STORE, and processor 1 wants a second number.
        .slim 1
        .entry give
        .entry take
        .data 0, 0              ; the box
        .data 7                 ; the number
        .data 0                 ; where it goes

give:   LOAD.N r1, r0, 1        ; reads [8]
        FADD.N r1, r0, 0        ; adds to 0, and fills the box
        QUIT

take:   LOAD.S r1, r0, 0
        STORE.N r1, r0, 2       ; writes [16]
        LOAD.S r1, r0, 0        ; nobody puts in a second number
        QUIT
