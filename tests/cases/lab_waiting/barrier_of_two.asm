; Two streams meet again and again: each tells the other one that it has come, and waits until that one has.
        .slim 1
        .entry work0
        .entry work1
        .data 0, 0              ; has processor 0 come?
        .data 0, 0              ; has processor 1?
work0:  ADD r1, r0, 1           ; its own work
meet0:  STORE.S r1, r0, 0
        LOAD.S r0, r0, 1
        SKIP ALWAYS, 0, work0
work1:  ADD r1, r0, 1
meet1:  STORE.S r1, r0, 1
        LOAD.S r0, r0, 0
        SKIP ALWAYS, 0, work1
