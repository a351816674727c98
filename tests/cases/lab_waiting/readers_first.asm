; Readers' preference: the first of two readers takes the room, and the last one releases it.
        .slim 1
        .entry read
        .entry read
        .entry write
        .data 0                 ; readers: how many are inside
        .data 0                 ; room: free while it is full
read:   LOAD.S r1, r0, 0 | SUB.T r0, r0, 0
        SUB.T r0, r1, 0
        ADD r1, r1, 1 | SKIP NE, 0, joined
        LOAD.S r0, r0, 1
joined: STORE.S r1, r0, 0 | SUB.T r1, r0, 0
        LOAD.S r1, r0, 0
        SUB.T r1, r1, 1
        SKIP NE, 0, left
        STORE.S r0, r0, 1
left:   STORE.S r1, r0, 0 | SUB.T r1, r0, 0 | SKIP ALWAYS, 0, read
write:  LOAD.S r0, r0, 1
        STORE.S r0, r0, 1
        SKIP ALWAYS, 0, write
