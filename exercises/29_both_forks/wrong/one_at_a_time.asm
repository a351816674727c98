; Who eats keeps the table, so nobody eats beside it.
        .slim 1
        .entry left
        .entry middle
        .entry right
        .fill 2, 0, 1           ; the forks
        .data 0                 ; the table: how many eat at its sides
        .data 0                 ; the meals of the middle one
        .data 0                 ; 1 while the middle one waits
        .data 0, 0              ; full when it may eat

left:   NOP
right:  LOAD.S r1, r0, 2        ; takes the table
        SKIP ALWAYS, 0, eat

feast:  FADD.N r1, r0, 3        ; the middle one eats
        SKIP ALWAYS, 0, full
eat:    NOP                     ; a side eats
eaten:  NOP

        STORE.S r0, r0, 2
again:  LOAD.N r1, r0, 3
        SUB.T r0, r1, 0
        SKIP EQ, 0, right       ; the middle one has not eaten: eats again
        QUIT

middle: LOAD.S r0, r0, 2
        LIT r1, 1
        SKIP ALWAYS, 0, feast
full:   STORE.S r0, r0, 2       ; puts the table back
        QUIT
