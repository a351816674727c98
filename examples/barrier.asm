; A barrier for two processors that is used in two rounds. Of each round the last to arrive opens the way on.
; Processors 0 and 1 have two gates: after the first, both have arrived; after the second, both have left, and the
; first is closed again. Processors 2 and 3 have one gate, which the first of a round closes. If one begins a new round
; before the other has left, it closes the gate in front of it: both wait at one gate, in different rounds, forever.
; Look at: r7, the round, of the two streams that end BLOCKED; what word 0 and word 4 count.
        .slim 1
        .entry two_gates
        .entry two_gates
        .entry one_gate
        .entry one_gate
        .data 0                 ; word 0: how many have arrived and not left
        .data 0, 0              ; word 1: the first gate, open while it is full
        .data 0, 1              ; word 2: the second gate
        .fill 1, 0, 0
        .data 0                 ; word 4: how many have arrived at the one gate
        .data 0, 0              ; word 5: the one gate

two_gates: LIT r7, 1            ; the round
round:  LIT r1, 1
        FADD.N r1, r0, 0
        SUB.T r0, r1, 1         ; was the other here before me?
        SKIP NE, 0, wait
        TAGSET r0, r0, 2        ; closes the second gate
        STORE.N r0, r0, 1       ; opens the first
wait:   LOAD.F r0, r0, 1
        SUB r1, r0, 1
        FADD.N r1, r0, 0
        SUB.T r0, r1, 1         ; am I the last to leave?
        SKIP NE, 0, leave
        TAGSET r0, r0, 1        ; closes the first gate
        STORE.N r0, r0, 2       ; opens the second
leave:  LOAD.F r0, r0, 2
        ADD r7, r7, 1
        SUB.T r0, r7, 3
        SKIP NE, 0, round
        QUIT

one_gate: LIT r7, 1
again:  LIT r1, 1
        FADD.N r1, r0, 4
        SUB.T r0, r1, 1
        SKIP EQ, 0, last
        TAGSET r0, r0, 5        ; the first of a round closes the gate
        SKIP ALWAYS, 0, pass
last:   STORE.N r0, r0, 4       ; counts anew for the next round
        STORE.N r0, r0, 5       ; opens the gate
pass:   LOAD.F r0, r0, 5
        ADD r7, r7, 1
        SUB.T r0, r7, 3
        SKIP NE, 0, again
        QUIT
