; As racing.asm, with an operation in the wrong case.
        .slim 1
        .entry count
        .entry count
        .data 0                 ; word 0
        .data 0                 ; word 1: the count

count:  load.N r2, r0, 1
        ADD r2, r2, 1
        STORE.N r2, r0, 1
        QUIT
