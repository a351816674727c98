; A word is emptied and gets a value, without being read. With the chain limit 0 nothing is forwarded.
.profile 2
.slim 1
.chain 0
.entry 0
LIT r1, 9
PURGE r1, r0, 0
QUIT
.data 5
