; Each turn subtracts 2 from 3, so the count never becomes 0: the code is made by AND.T, and the loop never ends.
        .slim 1
        .entry go
        .entry go
        .entry go
        .data 0
go:     LIT r2, 3
again:  LIT r1, 1
        FADD.N r1, r0, 0
        SUB r2, r2, 2
        AND.T r0, r2, r2
        SKIP NE, 0, again
        QUIT
