; A queue lock of two streams: each waits at the node of the one before, and takes that node over.
        .slim 1
        .entry first
        .entry second
        .data 8                 ; tail: the address of the node that came last
        .data 0                 ; a node, full: its owner has left
        .data 0, 0              ; the node of processor 0
        .data 0, 0              ; the node of processor 1
first:  LIT r1, 16
        SKIP ALWAYS, 0, enter
second: LIT r1, 24
enter:  LOAD.S r2, r0, 0        ; the node of the one before
        STORE.S r1, r0, 0       ; mine is the last one now
        LOAD.S r0, r2, 0        ; waits until the one before has left
        STORE.S r0, r1, 0       ; has left
        ADD r1, r2, 0 | SKIP ALWAYS, 0, enter
