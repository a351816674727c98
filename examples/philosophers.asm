; Five philosophers, five forks. A fork is a word that is full while it lies on the table; who takes it leaves it
; empty. Processor 0 to 4 take the fork on the left, then the one on the right: if all have taken their left one,
; each waits for the next, forever. Processor 5 is the fifth philosopher with another order: the lower fork first.
; With it in the place of processor 4 no circle can close.
; Look at: BLOCKED at the second fork, and word 5, which counts meals.
        .slim 1
        .entry first
        .entry second
        .entry third
        .entry fourth
        .entry fifth
        .entry ordered
        .fill 5, 0, 1           ; words 0 to 4: the forks, at addresses 0, 8, 16, 24, 32
        .data 0                 ; word 5: the meals

; each has its forks' addresses in r1 and r2, in the order in which it takes them
fifth:  LIT r1, 32
        SKIP ALWAYS, 0, eat
ordered: LIT r2, 32
        SKIP ALWAYS, 0, eat
fourth: LIT r1, 24
        LIT r2, 32
        SKIP ALWAYS, 0, eat
third:  LIT r1, 16
        LIT r2, 24
        SKIP ALWAYS, 0, eat
second: LIT r1, 8
        LIT r2, 16
        SKIP ALWAYS, 0, eat
first:  LIT r2, 8

eat:    LOAD.S r0, r1, 0        ; takes the one fork
        LOAD.S r0, r2, 0        ; and the other
        LIT r3, 1
        FADD.N r3, r0, 5
        STORE.S r0, r2, 0
        STORE.S r0, r1, 0
        QUIT
