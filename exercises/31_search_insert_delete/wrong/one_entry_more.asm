; One .entry line too many.
        .slim 1
        .entry search
        .entry search
        .entry second
        .entry insert
        .entry delete
        .data 0                 ; how many searchers are in the list
        .data 0                 ; the searchers' lock
        .data 0                 ; the inserters' lock
        .data 0                 ; how many are in the list
        .data 1                 ; what processor 1 wants: 1 to search, 2 to insert

; the work in the list
work:   LIT r5, 1
        FADD.N r5, r0, 3        ; counts itself in
inside: SUB r5, r0, 1
counted: FADD.N r5, r0, 3 | JUMP ALWAYS, 0, t2  ; and out

second: LOAD.N r1, r0, 4        ; does processor 1 want to search or to insert?
        SUB.T r0, r1, 2
        SKIP EQ, 0, insert
        SKIP ALWAYS, 0, search

search: TLIT t1, work
        LOAD.S r3, r0, 0        ; takes the count of searchers
        SUB.T r0, r3, 0
        ADD r3, r3, 1 | SKIP NE, 0, enter
        LOAD.S r0, r0, 1        ; the first one takes their lock for all
enter:  STORE.S r3, r0, 0

        CALL t1, t2

        LOAD.S r3, r0, 0
        SUB.T r3, r3, 1
        SKIP NE, 0, leave
        STORE.S r0, r0, 1       ; the last one releases it
leave:  STORE.S r3, r0, 0
        QUIT

insert: TLIT t1, work
        LOAD.S r0, r0, 2        ; takes the inserters' lock
        CALL t1, t2
        STORE.S r0, r0, 2       ; releases it
        QUIT

delete: TLIT t1, work
        LOAD.S r0, r0, 1        ; takes the searchers' lock
        LOAD.S r0, r0, 2        ; and that of the inserters
        CALL t1, t2
        STORE.S r0, r0, 2       ; releases both
        STORE.S r0, r0, 1
        QUIT
