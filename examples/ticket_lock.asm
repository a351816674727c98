; A lock with tickets. Each stream takes the next number, waits until it is called, and calls the number after its own.
; After number 3 comes 0 again. Three streams come again and again, so these four numbers are enough.
; Look at: mta_lab explore ticket_lock.asm --waiting. Who came first is called first, so nobody waits forever. See
; starving_lock.asm.
        .slim 1
        .entry enter
        .entry enter
        .entry enter
        .data 0                 ; ticket: 8 times the next number
        .data 0                 ; turn: full if number 0 is called
        .fill 3, 0, 0           ; the same of numbers 1 to 3

enter:  LOAD.S r1, r0, 0        ; takes a number
        ADD r2, r1, 8
        AND r2, r2, 24          ; after 3 comes 0
        STORE.S r2, r0, 0
        LOAD.S r0, r1, 1        ; waits until it is called
        STORE.S r0, r2, 1       ; is inside; leaves, and calls the next
        SKIP ALWAYS, 0, enter
