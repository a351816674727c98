; The room of reading_room.asm with a turnstile. All go through that one word, and the writer keeps it while it waits
; for the room. So no reader comes in any more, and those inside leave.
; Look at: mta_lab explore turnstile.asm --waiting. Nobody waits forever, neither the writer nor a reader.
        .slim 1
        .entry read
        .entry read
        .entry write
        .data 0                 ; room: free while it is full
        .data 0                 ; readers: how many are inside
        .data 0                 ; turnstile: free while it is full

read:   LOAD.S r0, r0, 2        ; goes through the turnstile
        STORE.S r0, r0, 2
        LOAD.S r1, r0, 1
        SUB.T r0, r1, 0
        SKIP NE, 0, join
        LOAD.S r0, r0, 0        ; the first reader takes the room for all of them
join:   ADD r1, r1, 1
        STORE.S r1, r0, 1

        LOAD.S r1, r0, 1
        SUB.T r1, r1, 1
        SKIP NE, 0, leave
        STORE.S r0, r0, 0       ; the last one releases it
leave:  STORE.S r1, r0, 1
        SKIP ALWAYS, 0, read

write:  LOAD.S r0, r0, 2        ; keeps the turnstile while it waits for the room
        LOAD.S r0, r0, 0        ; takes the room
        STORE.S r0, r0, 2
        STORE.S r0, r0, 0       ; releases it
        SKIP ALWAYS, 0, write
