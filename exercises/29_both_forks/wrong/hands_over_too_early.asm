; Who rises hands the table to the middle one, also while the other side eats.
        .slim 1
        .entry left
        .entry middle
        .entry right
        .fill 2, 0, 1           ; the forks
        .data 0                 ; the table: how many eat at its sides
        .data 0                 ; the meals of the middle one
        .data 0                 ; 1 while the middle one waits
        .data 0, 0              ; full when it may eat

; r3: the address of my fork
right:  LIT r3, 8
left:   LOAD.S r1, r0, 2        ; takes the table
        ADD r1, r1, 1 | SKIP ALWAYS, 0, eat

feast:  FADD.N r1, r0, 3        ; the middle one eats
        SKIP ALWAYS, 0, full
eat:    STORE.S r1, r0, 2       ; a side eats
eaten:  LOAD.S r1, r0, 2

        SUB r1, r1, 1
        LOAD.N r2, r0, 4
        SUB.T r0, r2, 0
        SKIP EQ, 0, put         ; the middle one does not wait
        STORE.N r0, r0, 4
        STORE.S r0, r0, 5       ; nobody eats: hands the table to it
        SKIP ALWAYS, 0, again
put:    STORE.S r1, r0, 2       ; puts the table back
again:  LOAD.N r1, r0, 3
        SUB.T r0, r1, 0
        SKIP EQ, 0, left        ; the middle one has not eaten: eats again
        QUIT

middle: LOAD.S r1, r0, 2        ; takes the table
        SUB.T r0, r1, 0
        SKIP EQ, 0, begin       ; nobody eats
        LIT r2, 1
        STORE.N r2, r0, 4       ; else it waits
        STORE.S r1, r0, 2
        LOAD.S r0, r0, 5        ; until nobody eats, and has the table then
begin:  LIT r1, 1
        SKIP ALWAYS, 0, feast
full:   STORE.S r0, r0, 2       ; puts the table back
        QUIT
