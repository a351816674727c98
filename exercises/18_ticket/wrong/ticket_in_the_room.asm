; Takes the ticket after the label of the room.
        .slim 1
        .entry enter
        .entry enter
        .entry enter
        .data 0                 ; the next ticket
        .data 0                 ; whose turn it is
        .data 0                 ; the visits
        .fill 3, 0, 1           ; the list of the tickets

enter:
inside: LIT r1, 1
        FADD.N r1, r0, 0        ; takes a ticket
ask:    LOAD.N r2, r0, 1
        SUB.T r0, r2, r1
        SKIP NE, 0, ask         ; not my turn

        LOAD.N r5, r0, 2        ; in the room; r1: my ticket
        SHL r6, r5, 3
        STORE.N r1, r6, 3       ; writes it on the list
        ADD r5, r5, 1
counted: STORE.N r5, r0, 2

        ADD r1, r1, 1
        STORE.N r1, r0, 1       ; calls the next ticket
        QUIT
