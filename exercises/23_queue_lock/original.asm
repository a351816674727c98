; A queue before the door. The task is in task.md.
        .slim 1
        .entry first
        .entry second
        .data 8                 ; the tail: the address of the node that came last
        .data 0                 ; a node, full: its owner has left
        .data 0, 0              ; the node of processor 0
        .data 0, 0              ; the node of processor 1
        .data 0                 ; the visits

first:  LIT r1, 16              ; r1: the address of my node
        SKIP ALWAYS, 0, start
second: LIT r1, 24
start:  LIT r7, 2               ; visits to go

enter:  NOP                     ; write here how a processor gets into the room

inside: LOAD.N r5, r0, 4        ; in the room
        ADD r5, r5, 1
counted: STORE.N r5, r0, 4

        SUB.T r7, r7, 1         ; write before this how it leaves
        SKIP NE, 0, enter
        QUIT
