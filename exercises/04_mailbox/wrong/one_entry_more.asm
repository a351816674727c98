; One .entry line too many.
; receiver until it is full.
        .slim 1
        .entry first
        .entry first
        .entry second
        .entry receive
        .data 0, 0              ; the mailbox
        .data 0                 ; the sum
        .data 3                 ; the number of processor 0
        .data 4                 ; the number of processor 1

first:  LOAD.N r1, r0, 2        ; r1: the number to send
        SKIP ALWAYS, 0, send
second: LOAD.N r1, r0, 3
send:   STORE.S r1, r0, 0
        QUIT

receive: LOAD.S r1, r0, 0       ; the first letter, whoever sent it
        LOAD.S r2, r0, 0        ; the second one
        ADD r1, r1, r2
        STORE.N r1, r0, 1
        QUIT
