; Two writers and a reader share a room, again and again, and writers come first. The word writers counts who writes or
; waits to write, and is empty while a writer changes it. The first writer closes the gate, through which a reader has
; to go, and the last one opens it.
; Look at: mta_lab explore writers_first.asm --waiting. If writers always overlap, the reader waits forever.
        .slim 1
        .entry write
        .entry write
        .entry read
        .data 0                 ; room: free while it is full
        .data 0                 ; writers: how many want to write, or do so
        .data 0                 ; gate: of readers, open while it is full

write:  LOAD.S r1, r0, 1
        SUB.T r0, r1, 0
        SKIP NE, 0, join
        LOAD.S r0, r0, 2        ; the first writer closes the gate for all of them
join:   ADD r1, r1, 1
        STORE.S r1, r0, 1
        LOAD.S r0, r0, 0        ; takes the room: only one of them is inside
        STORE.S r0, r0, 0       ; releases it

        LOAD.S r1, r0, 1
        SUB.T r1, r1, 1
        SKIP NE, 0, leave
        STORE.S r0, r0, 2       ; the last one opens the gate
leave:  STORE.S r1, r0, 1
        SKIP ALWAYS, 0, write

read:   LOAD.S r0, r0, 2        ; keeps the gate until it is inside
        LOAD.S r0, r0, 0        ; takes the room
        STORE.S r0, r0, 2
        STORE.S r0, r0, 0       ; releases it
        SKIP ALWAYS, 0, read
