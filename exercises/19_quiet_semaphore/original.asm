; A semaphore that does not poll. The task is in task.md.
        .slim 1
        .entry enter
        .entry enter
        .data 1                 ; the free places, less those who wait
        .data 0, 0              ; a token for one who waits
        .data 0                 ; how many are in the room

enter:  NOP                     ; write here how a place is taken

inside: LIT r3, 1               ; in the room
        FADD.N r3, r0, 2
        SUB r3, r0, 1
counted: FADD.N r3, r0, 2

        QUIT                    ; write before this how it is released
