; A word whose reference is blocked reserves nothing.
.slim 8
.entry 0
LOAD.S r3, r0, 0 | RESERVE r4, r2
.data 0, 0
