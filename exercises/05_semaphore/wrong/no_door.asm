; All begin in the room: nobody has asked for a place.
        .slim 1
        .entry inside
        .entry inside
        .entry inside
        .data 2
        .data 0
inside: LIT r3, 1
counted: FADD.N r3, r0, 1
        QUIT
