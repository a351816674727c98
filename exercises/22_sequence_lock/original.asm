; Readers that write nothing. The task is in task.md.
        .slim 1
        .entry write
        .entry read1
        .entry read2
        .data 0                 ; the sequence number
        .data 5                 ; the pair
        .data 5
        .fill 2, 0, 1           ; what processor 1 has read
        .fill 2, 0, 1           ; what processor 2 has read

write:  LOAD.N r2, r0, 1        ; the writer says nothing of its change yet
        ADD r2, r2, 1
        STORE.N r2, r0, 1
        STORE.N r2, r0, 2
        QUIT

; r7: where the reader puts what it has read
read1:  LIT r7, 24
        SKIP ALWAYS, 0, read
read2:  LIT r7, 40
read:   LOAD.N r5, r0, 1        ; and the readers do not ask
        LOAD.N r6, r0, 2
        STORE.N r5, r7, 0
        STORE.N r6, r7, 1
        QUIT
