; Counts to ten and stores the count: a loop by SUB.T and SKIP. Processor 1 has both in one word and counts to eleven.
; Look at: the last SKIP of each, which asks a condition code; processor 1's asks the code of the turn before.
        .slim 1
        .entry start
        .entry hasty
        .data 0                 ; word 0: the count
        .data 0                 ; word 1: the count of processor 1

start:  LIT r1, 0
again:  ADD r1, r1, 1
        SUB.T r0, r1, 10        ; makes a condition code, and keeps no result
        SKIP NE, 0, again       ; asks the newest code: not equal yet
        STORE.N r1, r0, 0
        QUIT

hasty:  LIT r1, 0
more:   ADD r1, r1, 1
        SUB.T r0, r1, 10 | SKIP NE, 0, more     ; asks the code from before this word, that of the last turn
        STORE.N r1, r0, 1
        QUIT
