; Both take from the box, and nobody puts anything in.
        .slim 1
        .entry give
        .entry take
        .data 0, 0              ; the box
        .data 7                 ; the number
        .data 0                 ; where it goes

give:   LOAD.N r1, r0, 1
        LOAD.S r1, r0, 0
        QUIT

take:   LOAD.S r1, r0, 0
        STORE.N r1, r0, 2
        QUIT
