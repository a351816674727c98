; The displacements count bytes in place of words.
        .slim 1
        .entry give
        .entry take
        .data 0, 0              ; the box
        .data 7                 ; the number
        .data 0                 ; where it goes

give:   LOAD.N r1, r0, 8
        STORE.S r1, r0, 0
        QUIT

take:   LOAD.S r1, r0, 0
        STORE.N r1, r0, 16
        QUIT
