; A mailbox. The task is in task.md.
        .slim 1
        .entry first
        .entry second
        .entry receive
        .data 0, 0              ; the mailbox
        .data 0                 ; the sum
        .data 3                 ; the number of processor 0
        .data 4                 ; the number of processor 1

first:  LOAD.N r1, r0, 2        ; r1: the number to send
        SKIP ALWAYS, 0, send
second: LOAD.N r1, r0, 3
send:   QUIT                    ; write here how a letter is sent

receive: QUIT                   ; write here what processor 2 does
