; A mailbox: one word, which is full while a letter lies in it. The sender puts a letter, takes it back, and puts a newer
; one. PURGE empties the mailbox without reading it and never waits, whether the letter is still there or not: so the
; second STORE.S finds it empty. Without the PURGE it would wait until the first letter is read.
; Look at: word 1, which letter was read; and the tags of word 0, whether one is left.
        .profile 2              ; PURGE is an operation of Profile 2
        .slim 1
        .entry send
        .entry receive
        .data 0, 0              ; word 0, the mailbox: empty
        .data 0                 ; word 1, at address 8: what was read

send:   LIT r1, 1
        STORE.S r1, r0, 0       ; the first letter
        PURGE r0, r0, 0         ; taken back
        LIT r1, 2
        STORE.S r1, r0, 0       ; the second letter
        QUIT

receive: LOAD.S r2, r0, 0       ; waits for a letter, and takes it
        STORE r2, r0, 1
        QUIT
