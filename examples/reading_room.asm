; Two readers and a writer share a room, again and again. Readers may be inside together, the writer only alone. The word
; readers counts who reads, and is empty while a reader changes it. The first reader takes the room, the last one releases it.
; Look at: mta_lab explore reading_room.asm --waiting. If readers always overlap, the writer waits forever.
; See turnstile.asm and writers_first.asm.
        .slim 1
        .entry read
        .entry read
        .entry write
        .data 0                 ; room: free while it is full
        .data 0                 ; readers: how many are inside

read:   LOAD.S r1, r0, 1
        SUB.T r0, r1, 0
        SKIP NE, 0, join
        LOAD.S r0, r0, 0        ; the first reader takes the room for all of them
join:   ADD r1, r1, 1
        STORE.S r1, r0, 1

        LOAD.S r1, r0, 1
        SUB.T r1, r1, 1
        SKIP NE, 0, leave
        STORE.S r0, r0, 0       ; the last one releases it
leave:  STORE.S r1, r0, 1
        SKIP ALWAYS, 0, read

write:  LOAD.S r0, r0, 0        ; takes the room
        STORE.S r0, r0, 0       ; releases it
        SKIP ALWAYS, 0, write
