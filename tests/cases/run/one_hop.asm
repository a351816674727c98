; The same with the chain limit 1.
.profile 2
.slim 1
.chain 1
.entry 0
LOAD r1, r0, 0
QUIT
.data 8, 3
.data 7
