; Three philosophers, three forks. A fork is a word that is full while it lies on the table; who takes it leaves it
; empty. Each takes the fork on the left, then the one on the right: if all have taken their left one, each waits for
; the next, forever. philosophers.asm has five, and one more who keeps to an order.
; Look at: BLOCKED at the second fork, and word 3, which counts meals.
        .slim 1
        .entry first
        .entry second
        .entry third
        .data 0                 ; fork A
        .data 0                 ; fork B
        .data 0                 ; fork C
        .data 0                 ; the meals

first:  LOAD.S r1, r0, 0        ; takes fork A
        LOAD.S r2, r0, 1        ; and fork B
        LIT r3, 1
        FADD.N r3, r0, 3        ; eats
        STORE.S r2, r0, 1       ; puts both back
        STORE.S r1, r0, 0
        QUIT

second: LOAD.S r1, r0, 1        ; takes fork B
        LOAD.S r2, r0, 2        ; and fork C
        LIT r3, 1
        FADD.N r3, r0, 3
        STORE.S r2, r0, 2
        STORE.S r1, r0, 1
        QUIT

third:  LOAD.S r1, r0, 2        ; takes fork C
        LOAD.S r2, r0, 0        ; and fork A
        LIT r3, 1
        FADD.N r3, r0, 3
        STORE.S r2, r0, 0
        STORE.S r1, r0, 2
        QUIT
