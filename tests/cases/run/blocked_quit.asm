; A word whose reference is blocked ends nothing.
.slim 8
.entry 0
LOAD.S r3, r0, 0 | QUIT
.data 0, 0
