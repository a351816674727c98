; Each adds its number to the sum itself, by FADD, and nobody has to take anything.
        .slim 1
        .entry first
        .entry second
        .entry take
        .data 0, 0              ; word 0: the mailbox, empty
        .data 0                 ; word 1: the sum
        .data 3                 ; word 2: the first number
        .data 4                 ; word 3: the second number
        .fill 2, 0, 1           ; words 4 and 5: mine

first:  LOAD.F r1, r0, 2 | SKIP ALWAYS, 0, hand
second: LOAD.F r1, r0, 3
hand:   FADD.F r1, r0, 1
take:   QUIT
