; One .entry line too many.
        .slim 1
        .entry first
        .entry first
        .entry second
        .entry clerk
        .fill 2, 0, 1           ; the notes: 1 while this customer wants to be served
        .fill 2, 0, 0           ; the answers: full when it is served
        .fill 2, 0, 1           ; 1 when it was served
        .data 0, 0              ; the bell
        .data 0                 ; how many have gone home

; r1: where my words begin, r2: where those of the other one begin
first:  LIT r2, 8
        SKIP ALWAYS, 0, come
second: LIT r1, 8
come:   LIT r3, 1
again:  STORE.N r3, r1, 0       ; wants to be served
        STORE.S r0, r0, 6       ; rings
        LOAD.S r0, r1, 2        ; waits until it is served
        STORE.N r3, r1, 4       ; was served
        LOAD.N r4, r2, 4        ; and the other one?
        SUB.T r0, r4, 0
        SKIP EQ, 0, again       ; not yet: comes again
        FADD.N r3, r0, 7        ; goes home
        SUB.T r0, r3, 1
        SKIP NE, 0, end
        STORE.S r3, r0, 6       ; the last one: closing time
end:    QUIT

clerk:  LOAD.S r1, r0, 6        ; waits for the bell
        SUB.T r0, r1, 0
        SKIP NE, 0, end         ; closing time
        LOAD.N r1, r2, 0        ; r2: whose turn it is; does this one want to be served?
        SUB.T r0, r1, 0
        SKIP NE, 0, serve
        XOR r2, r2, 8           ; no, so the other one does
serve:  STORE.N r0, r2, 0
        STORE.S r0, r2, 2       ; serves it
        XOR r2, r2, 8           ; next time the other one comes first
        SKIP ALWAYS, 0, clerk
