; A helper takes its part twice before it looks at the note.
        .slim 1
        .entry market
        .entry flour
        .entry water
        .entry salt
        .entry baker0
        .entry baker1
        .entry baker2
        .fill 3, 0, 0           ; the table: flour, water, salt
        .fill 3, 0, 0           ; the bell of each baker
        .data 0                 ; the note
        .data 0, 0              ; the bread: full when a baker is done
        .data 0                 ; how many breads
        .fill 3, 9, 1           ; who has baked
        .data 0                 ; what the market brings, two at a time
        .data 8
        .data 8
        .data 16
        .data 16
        .data 0

market: LIT r7, 3               ; rounds
bring:  LOAD.N r1, r4, 12
        STORE.S r0, r1, 0       ; puts one on the table
        LOAD.N r1, r4, 13
        STORE.S r0, r1, 0       ; and another one
        LOAD.S r0, r0, 7        ; waits until the bread is baked
        ADD r4, r4, 16
        SUB.T r7, r7, 1
        SKIP NE, 0, bring
        QUIT

; r1: the address of my bell, r2: my number
baker0: LIT r1, 24              ; has flour
        LIT r2, 0
        SKIP ALWAYS, 0, sleep
baker1: LIT r1, 32              ; has water
        LIT r2, 1
        SKIP ALWAYS, 0, sleep
baker2: LIT r1, 40              ; has salt
        LIT r2, 2
sleep:  LOAD.S r0, r1, 0        ; waits for the bell
        LIT r3, 1
        FADD.N r3, r0, 8        ; bakes
        SHL r3, r3, 3
        STORE.N r2, r3, 9       ; signs for it
        STORE.S r0, r0, 7       ; says so
        QUIT

; r1: where my part lies on the table, r2: the number of my part
flour:  LIT r1, 0
        LIT r2, 24
        SKIP ALWAYS, 0, help
water:  LIT r1, 8
        LIT r2, 16
        SKIP ALWAYS, 0, help
salt:   LIT r1, 16
        LIT r2, 8

help:   LIT r7, 2               ; how often my part comes
next:   LOAD.S r0, r1, 0
        LOAD.S r0, r1, 0
        LOAD.S r3, r0, 6        ; takes the note
        SUB.T r0, r3, 0
        SKIP EQ, 0, alone
        ADD r3, r3, r2          ; two parts: the sum is the address of a bell
        STORE.S r0, r3, 0       ; rings it
        STORE.S r0, r0, 6       ; nothing is on the note any more
        SKIP ALWAYS, 0, on
alone:  STORE.S r2, r0, 6       ; notes my part
on:     SUB.T r7, r7, 1
        SKIP NE, 0, next
        QUIT
