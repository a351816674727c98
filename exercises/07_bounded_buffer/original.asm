; A bounded buffer. The task is in task.md.
        .slim 1
        .entry first
        .entry second
        .entry consume
        .data 0                 ; the next ticket
        .data 0                 ; the sum
        .fill 2, 0, 0           ; a slot
        .data 3                 ; the number of processor 0
        .data 5                 ; the number of processor 1

first:  LOAD.N r4, r0, 4        ; r4: the number to put
        SKIP ALWAYS, 0, produce
second: LOAD.N r4, r0, 5
produce: LIT r5, 2              ; numbers still to put
put:    LIT r2, 1
        FADD.N r2, r0, 0        ; r2: my ticket
        SUB.T r5, r5, 1         ; write before this how the number goes into the slot
        SKIP NE, 0, put
        QUIT

consume: QUIT                   ; write here what the consumer does
