; A word that one word forwards, where the chain limit lets none: the LOAD traps at the first word, and with the limit 1
; it would be done.
.profile 2
.slim 1
.chain 0
.entry 0
LOAD r1, r0, 0
QUIT
.data 8, 3
.data 7
