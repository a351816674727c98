; Signs with the number of the item.
        .slim 1
        .entry zero
        .entry one
        .data 0                 ; the next item
        .data 5                 ; the number of item 0
        .data 6                 ; the number of item 1
        .data 7                 ; the number of item 2
        .fill 3, 0, 1           ; who did it

; r7: what this processor signs with
zero:   LIT r7, 1
        SKIP ALWAYS, 0, next
one:    LIT r7, 2

next:   LIT r1, 1
        FADD.N r1, r0, 0        ; takes the next item
        SUB.T r0, r1, 3
        SKIP GE, 0, end         ; there is none

        SHL r1, r1, 3           ; an address counts bytes
        LOAD.N r2, r1, 1        ; the item's number
        MUL r2, r2, 3
        ADD r2, r2, 1
        STORE.N r2, r1, 1
        STORE.N r2, r1, 4
        SKIP ALWAYS, 0, next

end:    QUIT
