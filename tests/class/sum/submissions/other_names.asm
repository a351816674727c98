; Zwei Helfer, je zwei Zahlen.
        .slim 3
        .entry start
        .data 0, 0              ; ergebnis
        .data 1                 ; zahl
        .data 2
        .data 3
        .data 4
        .data 0                 ; summe
        .data 0, 0              ; fertig

start:  LIT r2, 2
        RESERVE r3, r2
        TLIT t1, helfer
        LIT r1, 8
        ADD r1, r1, 16 | CREATE t1, r1
        CREATE t1, r1
        LOAD.S r1, r0, 6
        LOAD.S r2, r0, 6
        ADD r1, r1, r2
        STORE.N r1, r0, 0
        QUIT
helfer: LOAD.N r2, r1, 0
        LOAD.N r3, r1, 1
        ADD r2, r2, r3
        STORE.S r2, r0, 6
        QUIT
