; One .entry line too many.
        .slim 1
        .entry left
        .entry left
        .entry middle
        .entry right
        .fill 2, 0, 1           ; the forks
        .data 0                 ; the table: how many eat at its sides
        .data 0                 ; the meals of the middle one
        .data 0                 ; 1 while the middle one waits
        .data 0, 0              ; full when it may eat

; r3: the address of my fork
right:  LIT r3, 8
left:   LOAD.S r0, r3, 0        ; takes its fork
        LOAD.S r1, r0, 2        ; takes the table
        ADD r1, r1, 1 | SKIP ALWAYS, 0, eat

feast:  FADD.N r1, r0, 3        ; the middle one eats
        SKIP ALWAYS, 0, full
eat:    STORE.S r1, r0, 2       ; a side eats
eaten:  LOAD.S r1, r0, 2

        SUB r1, r1, 1
        STORE.S r1, r0, 2       ; puts the table back
        STORE.S r0, r3, 0       ; and its fork
again:  LOAD.N r1, r0, 3
        SUB.T r0, r1, 0
        SKIP EQ, 0, left        ; the middle one has not eaten: eats again
        QUIT

middle: LOAD.S r0, r0, 0        ; takes one fork, and keeps it
        LOAD.S r0, r0, 1        ; while it waits for the other one
        LIT r1, 1
        SKIP ALWAYS, 0, feast
full:   STORE.S r0, r0, 1       ; puts both back
        STORE.S r0, r0, 0
        QUIT
