; A stack without a lock. The task is in task.md.
        .slim 1
        .entry first
        .entry second
        .entry pop
        .data 0                 ; the top
        .data 0                 ; the sum
        .data 3                 ; the value of node 16
        .data 0                 ; below node 16
        .data 4                 ; the value of node 32
        .data 0                 ; below node 32

first:  LIT r1, 16              ; r1: the node to push
        SKIP ALWAYS, 0, push
second: LIT r1, 32
push:   QUIT                    ; write here how a node is pushed

pop:    LIT r5, 2               ; how many to pop
        QUIT                    ; write before this how they are popped
