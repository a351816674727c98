; The philosophers. The task is in task.md.
        .slim 1
        .entry zero
        .entry one
        .entry two
        .fill 3, 0, 1           ; a fork
        .data 0                 ; the meals

; r1, r2: the addresses of the two forks
zero:   LIT r1, 0
        LIT r2, 8
        SKIP ALWAYS, 0, sit
one:    LIT r1, 8
        LIT r2, 16
        SKIP ALWAYS, 0, sit
two:    LIT r1, 16
        LIT r2, 0

sit:    NOP                     ; write here how the forks are taken

eat:    LIT r3, 1
eaten:  FADD.N r3, r0, 3        ; one meal more

        QUIT                    ; write before this how they are put back
