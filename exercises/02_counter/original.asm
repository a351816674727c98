; A counter by FADD. The task is in task.md.
        .slim 1
        .entry count            ; all three processors begin here
        .entry count
        .entry count
        .data 0                 ; the count

count:  LIT r2, 2               ; how many turns are left
again:  LOAD.N r1, r0, 0        ; these three words can lose a count
        ADD r1, r1, 1
        STORE.N r1, r0, 0
        SUB.T r2, r2, 1
        SKIP NE, 0, again
        QUIT
