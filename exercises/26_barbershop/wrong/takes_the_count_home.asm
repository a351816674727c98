; Leaves by LOAD.S and STORE.S; who goes home last takes the count with it.
        .slim 1
        .entry first
        .entry second
        .entry third
        .entry barber
        .data 0                 ; how many customers are in the shop
        .data 0, 0              ; the next one: the address of its word
        .data 0                 ; how many have gone home
        .data 0                 ; how many found no place
        .data 0                 ; how many haircuts
        .fill 3, 0, 0           ; the word of each customer

; r1: the address of the customer's word
first:  LIT r1, 40
        SKIP ALWAYS, 0, come
second: LIT r1, 48
        SKIP ALWAYS, 0, come
third:  LIT r1, 56

come:   LOAD.S r2, r0, 0        ; looks into the shop
        SUB.T r0, r2, 2
        SKIP EQ, 0, full
        ADD r2, r2, 1
        STORE.S r2, r0, 0       ; goes in
        STORE.S r1, r0, 1       ; is the next one
        LOAD.S r0, r1, 0        ; waits until its hair is cut
        LOAD.S r2, r0, 0
        SUB r2, r2, 1
        STORE.S r2, r0, 0
        SKIP ALWAYS, 0, home
full:   STORE.S r2, r0, 0       ; there is no place
        LIT r3, 1
        FADD.N r3, r0, 3

home:   LIT r3, 1
        FADD.N r3, r0, 2        ; goes home
        SUB.T r0, r3, 2
        SKIP NE, 0, end
        STORE.S r0, r0, 1
        LOAD.S r0, r0, 0
end:    QUIT

barber: LOAD.S r1, r0, 1        ; waits for the next one
        SUB.T r0, r1, 0
        SKIP EQ, 0, end         ; closing time
        LIT r3, 1
        FADD.N r3, r0, 4        ; cuts its hair
        STORE.S r0, r1, 0       ; says so
        SKIP ALWAYS, 0, barber
