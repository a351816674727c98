; The numbers are 11 and then 22, as everybody can see.
        .slim 1
        .entry first
        .entry second
        .data 1                 ; left
        .data 10                ; right
        .data 0                 ; arrived
        .data 0, 0              ; gate

first:  LIT r1, 11
        STORE.N r1, r0, 0
        ADD r1, r1, r1
        STORE.N r1, r0, 0
        QUIT
second: LIT r1, 11
        STORE.N r1, r0, 1
        ADD r1, r1, r1
        STORE.N r1, r0, 1
        QUIT
