; A lock that can leave somebody out. Processor 2 keeps a door, and lets in one stream at a time: the first one if it
; asks, and the second one only if the first one does not ask. Both come again and again.
; Look at: mta_lab explore starving_lock.asm --waiting. If the first one always asks again before the door looks, the
; second one waits forever. See ticket_lock.asm.
        .slim 1
        .entry first
        .entry second
        .entry door
        .data 0                 ; asks1: 1 if the first asks
        .data 0                 ; asks2: 1 if the second asks
        .data 0, 0              ; enter1: filled for the first
        .data 0, 0              ; enter2: filled for the second
        .data 0, 0              ; left: filled by who leaves

first:  LIT r1, 1
ask1:   STORE.N r1, r0, 0
        LOAD.S r0, r0, 2        ; waits at the door
        STORE.S r0, r0, 4       ; is inside, and leaves
        SKIP ALWAYS, 0, ask1

second: LIT r1, 1
ask2:   STORE.N r1, r0, 1
        LOAD.S r0, r0, 3
        STORE.S r0, r0, 4
        SKIP ALWAYS, 0, ask2

door:   LOAD.N r1, r0, 0        ; does the first one ask?
        SUB.T r0, r1, 0
        SKIP EQ, 0, other
        STORE.N r0, r0, 0
        STORE.S r0, r0, 2       ; lets it in
        LOAD.S r0, r0, 4        ; waits until it has left
        SKIP ALWAYS, 0, door
other:  LOAD.N r1, r0, 1        ; else, does the second one?
        SUB.T r0, r1, 0
        SKIP EQ, 0, door
        STORE.N r0, r0, 1
        STORE.S r0, r0, 3
        LOAD.S r0, r0, 4
        SKIP ALWAYS, 0, door
