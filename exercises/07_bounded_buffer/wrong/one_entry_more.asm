; One .entry line too many.
; number.
        .slim 1
        .entry first
        .entry first
        .entry second
        .entry consume
        .data 0                 ; the next ticket
        .data 0                 ; the sum
        .fill 2, 0, 0           ; a slot
        .data 3                 ; the number of processor 0
        .data 5                 ; the number of processor 1

first:  LOAD.N r4, r0, 4        ; r4: the number to put
        SKIP ALWAYS, 0, produce
second: LOAD.N r4, r0, 5
produce: LIT r5, 2              ; numbers still to put
put:    LIT r2, 1
        FADD.N r2, r0, 0        ; r2: my ticket, 0, 1, 2, ..
        AND r3, r2, 1           ; modulo 2 ..
        SHL r3, r3, 3           ; .. times 8: how far the slot is from the first
        STORE.S r4, r3, 2       ; waits until it is empty
        SUB.T r5, r5, 1
        SKIP NE, 0, put
        QUIT

consume: LIT r5, 4              ; numbers still to take
take:   AND r3, r2, 1           ; r2: how many were taken
        SHL r3, r3, 3
        LOAD.S r1, r3, 2 | ADD r2, r2, 1
        ADD r6, r6, r1
        SUB.T r5, r5, 1
        SKIP NE, 0, take
        STORE.N r6, r0, 1
        QUIT
