; Takes the tail twice.
        .slim 1
        .entry put1
        .entry put2
        .entry get
        .entry get
        .data 24                ; the head: the address of the oldest node
        .data 24                ; the tail: the address of the newest node
        .data 0                 ; the sum
        .data 0                 ; the value of node 24, a dummy
        .data 0, 0              ; the link of node 24
        .data 3                 ; the value of node 40
        .data 0, 0              ; the link of node 40
        .data 4                 ; the value of node 56
        .data 0, 0              ; the link of node 56

; r1: the address of the node to put in
put1:   LIT r1, 40
        SKIP ALWAYS, 0, put
put2:   LIT r1, 56

put:    LOAD.S r2, r0, 1
        LOAD.S r2, r0, 1
        STORE.S r1, r2, 1       ; links my node to the newest one
        STORE.S r1, r0, 1       ; my node is the newest one now
        QUIT

get:    LOAD.S r2, r0, 0        ; takes the head
        LOAD.F r3, r2, 1        ; the next node, as soon as there is one
        LOAD.N r4, r3, 0
        STORE.S r3, r0, 0       ; it is the head now
        FADD.N r4, r0, 2        ; adds its value to the sum
        QUIT
