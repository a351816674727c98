; A LOAD.S of an empty word: blocked twice, then trapped to the handler, which reads the trap register.
.slim 1
.retry 2
.trap h
.entry 0
LOAD.S r3, r2, 1
QUIT
h: XGET r4
QUIT
.data 0
.data 0, 0
