; Processor 1 waits for the word that processor 0 fills, and leaves it empty; there is no processor 9.
.slim 1
.entry 0
.entry 3
LIT r1, 3
STORE.S r1, r0, 0
QUIT
LOAD.S r3, r0, 0
QUIT
.data 0, 0
