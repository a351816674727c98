; A word that stays empty. Processor 1 forgets its STORE.S, so processor 0 waits forever. Without a retry limit nothing
; at the end shows it. See limited_wait.asm.
; Look at: the steps of processor 0, each BLOCKED; and the end, which says Running, as of a stream that works.
        .slim 1
        .entry take
        .entry forget
        .data 0                 ; word 0
        .data 0, 0              ; word 1, at address 8: empty

take:   LOAD.S r1, r0, 1
        QUIT

forget: LIT r1, 7
        QUIT
