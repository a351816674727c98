; A word with the forward bit sends references on to where it points. Word 1 points to itself: processor 1 is caught.
; Look at: the word that the store changes, and the trap, 9, with the address at which the chain was given up in xr.
        .slim 1
        .entry start
        .entry chase
        .data 16, 3             ; word 0: forwards to byte address 16 (tags: full 1 and forward 2)
        .data 8, 3              ; word 1: forwards to itself
        .data 99                ; word 2

start:  LOAD.N r1, r0, 0        ; reads word 2
        ADD r1, r1, 1
        STORE.N r1, r0, 0       ; writes word 2; word 0 stays the pointer
        QUIT

chase:  LOAD.N r1, r0, 1        ; forwarded eight times, and then it traps
