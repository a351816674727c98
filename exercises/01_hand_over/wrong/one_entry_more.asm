; One .entry line too many.
        .slim 1
        .entry give
        .entry give
        .entry take
        .data 0, 0              ; the box
        .data 7                 ; the number
        .data 0                 ; where it goes

give:   LOAD.N r1, r0, 1        ; reads [8]
        STORE.S r1, r0, 0       ; waits until the box is empty, and fills it
        QUIT

take:   LOAD.S r1, r0, 0        ; waits until the box is full, and empties it
        STORE.N r1, r0, 2       ; writes [16]
        QUIT
