; Only looks whether the forks are there: a future load leaves them on the table.
        .slim 1
        .entry zero
        .entry one
        .entry two
        .fill 3, 0, 1           ; a fork
        .data 0                 ; the meals

; r1, r2: the addresses of the two forks, the lower one first
zero:   LIT r1, 0
        LIT r2, 8
        SKIP ALWAYS, 0, sit
one:    LIT r1, 8
        LIT r2, 16
        SKIP ALWAYS, 0, sit
two:    LIT r1, 0
        LIT r2, 16

sit:    LOAD.F r0, r1, 0        ; looks at the one fork
        LOAD.F r0, r2, 0        ; and the other

eat:    LIT r3, 1
eaten:  FADD.N r3, r0, 3        ; one meal more

        STORE.N r0, r2, 0       ; puts both back
        STORE.N r0, r1, 0
        QUIT
