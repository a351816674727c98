; SUB without .T makes no condition code, so the loop never ends.
        .slim 1
        .entry count
        .entry count
        .entry count
        .data 0                 ; the count

count:  LIT r2, 2
again:  LIT r1, 1
        FADD.N r1, r0, 0
        SUB r2, r2, 1
        SKIP NE, 0, again
        QUIT
