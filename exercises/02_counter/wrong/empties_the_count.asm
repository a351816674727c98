; Makes the count empty at the end, by TAGSET.
        .slim 1
        .entry count
        .entry count
        .entry count
        .data 0                 ; the count

count:  LIT r2, 2               ; how many turns are left
again:  LIT r1, 1               ; in each turn anew, since FADD makes r1 the old count
        FADD.N r1, r0, 0
        SUB.T r2, r2, 1
        SKIP NE, 0, again
        TAGSET r0, r0, 0
        QUIT
