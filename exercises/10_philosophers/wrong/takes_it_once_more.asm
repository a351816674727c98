; Processor 0 waits for a fork that it has taken once more, after its meal.
        .slim 1
        .entry zero
        .entry one
        .entry two
        .fill 3, 0, 1           ; a fork
        .data 0                 ; the meals

; r1, r2: the addresses of the two forks, the lower one first
zero:   LIT r1, 0
        LIT r2, 8
        SKIP ALWAYS, 0, sit
one:    LIT r1, 8
        LIT r2, 16
        SKIP ALWAYS, 0, sit
two:    LIT r1, 0
        LIT r2, 16

sit:    LOAD.S r0, r1, 0        ; takes the one fork
        LOAD.S r0, r2, 0        ; and the other

eat:    LIT r3, 1
eaten:  FADD.N r3, r0, 3        ; one meal more

        STORE.S r0, r2, 0       ; puts both back
        STORE.S r0, r1, 0
        SUB.T r0, r2, 8
        SKIP NE, 0, end
        LOAD.S r0, r1, 0
        LOAD.S r0, r1, 0
end:    QUIT
