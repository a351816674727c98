; A semaphore. The task is in task.md.
        .slim 1
        .entry enter
        .entry enter
        .entry enter
        .data 2                 ; the free places
        .data 0                 ; the visits

enter:  NOP                     ; write here how a place is taken

inside: LIT r3, 1               ; in the room
counted: FADD.N r3, r0, 1

leave:  QUIT                    ; write here how it is released
