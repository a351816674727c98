; Names that are nearly those of operations, directives, conditions and labels.
        .slim 2
        .entry start
        .dat 0
        .data 0
start:  LIT r1, 0
again:  LAOD.N r2, r0, 0
        add r1, r1, 1
        ADDD.t r1, r1, 1
loop    SUB.T r0, r1, 9
        SKIP NEQ, 0, agian
        HALT
        QUIT # done
