; One processor does it all, and nobody is there to be in its way.
        .slim 1
        .entry all
        .entry none
        .data 0                 ; word 0: the lock, free while it is full
        .data 0                 ; word 1: the count
        .fill 2, 0, 1              ; words 2 and 3: mine

all:    LIT r1, 8
        FADD.N r1, r0, 1
none:   QUIT
