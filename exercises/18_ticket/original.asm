; First come, first served. The task is in task.md.
        .slim 1
        .entry enter
        .entry enter
        .entry enter
        .data 0                 ; the next ticket
        .data 0                 ; whose turn it is
        .data 0                 ; the visits
        .fill 3, 0, 1           ; the list of the tickets

enter:  LIT r1, 0               ; write here how a ticket is taken, and its turn awaited

inside: LOAD.N r5, r0, 2        ; in the room; r1: my ticket
        SHL r6, r5, 3
        STORE.N r1, r6, 3       ; writes it on the list
        ADD r5, r5, 1
counted: STORE.N r5, r0, 2

        QUIT                    ; write before this that the next ticket is called
