; Looks at the number, empties the box afterwards, and stores beside.
        .slim 1
        .entry give
        .entry take
        .data 0, 0              ; the box
        .data 7                 ; the number
        .data 0                 ; where it goes

give:   LOAD.N r1, r0, 1        ; reads [8]
        STORE.S r1, r0, 0       ; waits until the box is empty, and fills it
        QUIT

take:   LOAD.F r1, r0, 0
        TAGSET r0, r0, 0
        STORE.N r1, r0, 1
        QUIT
