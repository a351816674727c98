; Search, insert, delete. The task is in task.md.
        .slim 1
        .entry search
        .entry second
        .entry insert
        .entry delete
        .data 0                 ; how many searchers are in the list
        .data 0                 ; the searchers' lock
        .data 0                 ; the inserters' lock
        .data 0                 ; how many are in the list
        .data 1                 ; what processor 1 wants: 1 to search, 2 to insert

; the work in the list
work:   LIT r5, 1
        FADD.N r5, r0, 3        ; counts itself in
inside: SUB r5, r0, 1
counted: FADD.N r5, r0, 3 | JUMP ALWAYS, 0, t2  ; and out

second: LOAD.N r1, r0, 4        ; does processor 1 want to search or to insert?
        SUB.T r0, r1, 2
        SKIP EQ, 0, insert
        SKIP ALWAYS, 0, search

search: TLIT t1, work
        CALL t1, t2             ; write what comes before each CALL, and what comes after it
        QUIT

insert: TLIT t1, work
        CALL t1, t2
        QUIT

delete: TLIT t1, work
        CALL t1, t2
        QUIT
