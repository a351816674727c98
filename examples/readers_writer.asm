; Two words that have to be equal, one writer, two readers. Processors 0 to 2 keep the rule that a writer is alone:
; readers count themselves in word 3, which is empty while one of them changes it; the first of them takes the room
; (word 2) and the last releases it. Processors 3 and 4 do without.
; Look at: r5 and r6 of a reader. They differ where the read is torn: the first word is old, the second is new.
        .slim 1
        .entry write
        .entry read
        .entry read
        .entry careless_write
        .entry careless_read
        .fill 2, 1, 1           ; words 0 and 1: equal, but while a writer is in the room
        .data 0                 ; word 2: the room, free while it is full
        .data 0                 ; word 3: how many readers are in the room

write:  LIT r1, 2
        LOAD.S r0, r0, 2        ; takes the room
        STORE.N r1, r0, 0
        STORE.N r1, r0, 1
        STORE.S r0, r0, 2       ; releases it
        QUIT

read:   LOAD.S r1, r0, 3
        SUB.T r0, r1, 0
        SKIP NE, 0, enter
        LOAD.S r0, r0, 2        ; the first reader takes the room for all of them
enter:  ADD r1, r1, 1
        STORE.S r1, r0, 3
        LOAD.N r5, r0, 0
        LOAD.N r6, r0, 1
        LOAD.S r1, r0, 3
        SUB.T r1, r1, 1
        SKIP NE, 0, leave
        STORE.S r0, r0, 2       ; the last one releases it
leave:  STORE.S r1, r0, 3
end:    SKIP ALWAYS, 0, end     ; stays, so that r5 and r6 can be seen

careless_write: LIT r1, 2
        STORE.N r1, r0, 0
        STORE.N r1, r0, 1
        QUIT

careless_read: LOAD.N r5, r0, 0
        LOAD.N r6, r0, 1
        SKIP ALWAYS, 0, end
