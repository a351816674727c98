; Writers' preference: the first of two writers takes the gate of the reader, and the last one releases it.
        .slim 1
        .entry write
        .entry write
        .entry read
        .data 0                 ; writers: how many want to write
        .data 0                 ; gate: of readers, free while it is full
        .data 0                 ; room: free while it is full
write:  LOAD.S r1, r0, 0 | SUB.T r0, r0, 0
        SUB.T r0, r1, 0
        ADD r1, r1, 1 | SKIP NE, 0, joined
        LOAD.S r0, r0, 1
joined: STORE.S r1, r0, 0 | SUB.T r1, r0, 0
        LOAD.S r0, r0, 2
        STORE.S r0, r0, 2
        LOAD.S r1, r0, 0
        SUB.T r1, r1, 1
        SKIP NE, 0, left
        STORE.S r0, r0, 1
left:   STORE.S r1, r0, 0 | SUB.T r1, r0, 0 | SKIP ALWAYS, 0, write
read:   LOAD.S r0, r0, 1
        LOAD.S r0, r0, 2
        STORE.S r0, r0, 1
        STORE.S r0, r0, 2 | SKIP ALWAYS, 0, read
