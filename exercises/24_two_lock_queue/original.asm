; A queue with two ends. The task is in task.md.
        .slim 1
        .entry put1
        .entry put2
        .entry get
        .entry get
        .data 24                ; the head: the address of the oldest node
        .data 24                ; the tail: the address of the newest node
        .data 0                 ; the sum
        .data 0                 ; the value of node 24, a dummy
        .data 0, 0              ; the link of node 24
        .data 3                 ; the value of node 40
        .data 0, 0              ; the link of node 40
        .data 4                 ; the value of node 56
        .data 0, 0              ; the link of node 56

; r1: the address of the node to put in
put1:   LIT r1, 40
        SKIP ALWAYS, 0, put
put2:   LIT r1, 56

put:    QUIT                    ; write before this how a node is put in

get:    LIT r4, 1               ; write here how a value is taken out into r4
        FADD.N r4, r0, 2        ; adds it to the sum
        QUIT
