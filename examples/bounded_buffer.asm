; A ring of two slots between two producers and a consumer. A slot is full while it holds a number: a producer waits
; for an empty one, the consumer for a full one. FADD returns tickets, so no two producers take the same turn.
; Look at: who is BLOCKED at put and take, and the sum in word 1. Processors 3 and 4 count their places by LOAD and
; STORE: where both read the place before one has stored it, the 9 overwrites the 7.
        .slim 1
        .entry produce
        .entry produce
        .entry consume
        .entry seven
        .entry nine
        .data 0                 ; word 0: the next ticket of a producer
        .data 0                 ; word 1: the sum of the numbers taken
        .fill 2, 0, 0           ; words 2 and 3: the ring, both slots empty
        .data 0                 ; word 4: the next place of a careless producer
        .fill 2, 0, 1           ; words 5 and 6: the numbers that careless producers put

produce: LIT r5, 2              ; numbers still to hand on
put:    LIT r2, 1
        FADD.N r2, r0, 0        ; r2: my ticket, 0, 1, 2, ..
        AND r3, r2, 1           ; ticket modulo 2 ..
        SHL r3, r3, 3           ; .. times 8: how far the slot is from the first
        ADD r4, r2, 10
        STORE.S r4, r3, 2 | SUB.T r5, r5, 1
        SKIP NE, 0, put
        QUIT

consume: LIT r5, 4              ; numbers still to take
take:   AND r3, r2, 1           ; r2: how many were taken
        SHL r3, r3, 3
        LOAD.S r4, r3, 2 | ADD r2, r2, 1
        ADD r6, r6, r4
        SUB.T r5, r5, 1
        SKIP NE, 0, take
        STORE.N r6, r0, 1
        QUIT

seven:  LIT r4, 7
        SKIP ALWAYS, 0, careless
nine:   LIT r4, 9
careless: LOAD.N r2, r0, 4      ; r2: my place, if no other stream reads it before the STORE.N
        ADD r3, r2, 1
        STORE.N r3, r0, 4
        SHL r3, r2, 3
        STORE.N r4, r3, 5
        QUIT
