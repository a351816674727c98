; Producer and consumer. The task is in task.md.
        .slim 1
        .entry produce
        .entry consume
        .data 0, 0              ; the slot
        .data 0                 ; the sum
        .data 3                 ; n

produce: LOAD.N r1, r0, 2       ; r1: the next number
        STORE.S r1, r0, 0       ; hands over n, and nothing else yet
        QUIT

consume: LOAD.S r2, r0, 0
        STORE.N r2, r0, 1
        QUIT
