; A ticket lock of three streams: a ticket is one of four turns, and a turn is a full word.
        .slim 1
        .entry enter
        .entry enter
        .entry enter
        .data 0                 ; ticket: the next one, as the byte offset of its turn
        .data 0                 ; turn: of the first ticket
        .fill 3, 0, 0           ; those of the others
enter:  LOAD.S r1, r0, 0
        ADD r2, r1, 8
        AND r2, r2, 24
        STORE.S r2, r0, 0
        LOAD.S r0, r1, 1        ; waits for its turn
        STORE.S r0, r2, 1       ; calls the next
        SKIP ALWAYS, 0, enter
