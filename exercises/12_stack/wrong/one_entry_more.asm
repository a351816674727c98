; One .entry line too many.
        .slim 1
        .entry first
        .entry first
        .entry second
        .entry pop
        .data 0                 ; the top
        .data 0                 ; the sum
        .data 3                 ; the value of node 16
        .data 0                 ; below node 16
        .data 4                 ; the value of node 32
        .data 0                 ; below node 32

first:  LIT r1, 16              ; r1: the node to push
        SKIP ALWAYS, 0, push
second: LIT r1, 32
push:   LOAD.S r2, r0, 0        ; takes the top: the others wait
        STORE.N r2, r1, 1       ; it comes below the node
        STORE.S r1, r0, 0       ; the node is the new top
        QUIT

pop:    LIT r5, 2               ; how many to pop
next:   LOAD.S r1, r0, 0        ; takes the top
        SUB.T r0, r1, 0
        SKIP NE, 0, found
        STORE.S r1, r0, 0 | SKIP ALWAYS, 0, next        ; empty: puts the 0 back, tries again
found:  LOAD.N r2, r1, 1        ; the node below
        STORE.S r2, r0, 0       ; is the new top
        LOAD.N r3, r1, 0
        ADD r4, r4, r3
        SUB.T r5, r5, 1
        SKIP NE, 0, next
        STORE.N r4, r0, 1
        QUIT
