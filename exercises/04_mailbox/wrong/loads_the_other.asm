; Processor 0 has a LOAD of its own, and reads the number of processor 1 by it.
        .slim 1
        .entry first
        .entry second
        .entry receive
        .data 0, 0
        .data 0
        .data 3
        .data 4
first:  LOAD.N r1, r0, 3
        STORE.S r1, r0, 0
        QUIT
second: LOAD.N r1, r0, 3
        STORE.S r1, r0, 0
        QUIT
receive: LOAD.S r1, r0, 0
        LOAD.S r2, r0, 0
        ADD r1, r1, r2
        STORE.N r1, r0, 1
        QUIT
