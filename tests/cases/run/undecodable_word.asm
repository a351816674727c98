; A word that spells no instruction, among some that do; without a handler it stops the stream.
.slim 1
.retry 2
.entry 0
LIT r1, 5
.word 1
LOAD.S r3, r2, 1
QUIT
.fill 2, 0, 1
.data 7, 11
