; The second turn adds the old count, since FADD has put it into r1.
        .slim 1
        .entry count
        .entry count
        .entry count
        .data 0                 ; the count

count:  LIT r2, 2
        LIT r1, 1
again:  FADD.N r1, r0, 0
        SUB.T r2, r2, 1
        SKIP NE, 0, again
        QUIT
