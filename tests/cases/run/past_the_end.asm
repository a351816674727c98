; A handler reads the trap register and runs past the end of the program: its own trap stops the stream.
.slim 1
.entry 0
TLIT t0, 3
.word 0x1
QUIT
XGET r4
.data 0
