; Puts its node into the tail twice.
        .slim 1
        .entry first
        .entry second
        .data 8                 ; the tail: the address of the node that came last
        .data 0                 ; a node, full: its owner has left
        .data 0, 0              ; the node of processor 0
        .data 0, 0              ; the node of processor 1
        .data 0                 ; the visits

first:  LIT r1, 16              ; r1: the address of my node
        SKIP ALWAYS, 0, start
second: LIT r1, 24
start:  LIT r7, 2               ; visits to go

enter:  TAGSET r0, r1, 0        ; my node is empty: I have not left
        LOAD.S r2, r0, 0        ; the node of the one before me
        STORE.S r1, r0, 0
        STORE.S r1, r0, 0
        LOAD.F r0, r2, 0        ; waits until the one before me has left

inside: LOAD.N r5, r0, 4        ; in the room
        ADD r5, r5, 1
counted: STORE.N r5, r0, 4

        STORE.N r0, r1, 0       ; I have left
        ADD r1, r2, 0           ; the node of the one before is mine now
        SUB.T r7, r7, 1
        SKIP NE, 0, enter
        QUIT
