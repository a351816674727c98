; Each adds once: the loop is missing.
        .slim 1
        .entry count
        .entry count
        .entry count
        .data 0                 ; the count

count:  LIT r1, 1
        FADD.N r1, r0, 0
        QUIT
