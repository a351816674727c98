; Lösung von Jürgen: ein Schloss um jeden Schritt.
        .slim 1
        .entry count
        .entry count
        .data 0                 ; word 0: the lock, free while it is full
        .data 0                 ; word 1: the count
        .fill 2, 0, 1              ; words 2 and 3: mine

count:  LIT r4, 4
more:   LOAD.S r1, r0, 0        ; nimmt das Schloss, wartet bis es frei ist
        LOAD.N r2, r0, 1
        ADD r2, r2, 1           ; zählt
        STORE.N r2, r0, 1
        STORE.S r1, r0, 0 | SUB.T r4, r4, 1     ; gibt es zurück
        SKIP NE, 0, more
        QUIT
