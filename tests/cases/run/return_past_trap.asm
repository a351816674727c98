; A handler adds 1 to the pc that it goes back to, and so goes on behind the word that trapped.
.slim 1
.trap h
.entry 0
.word 0x1
QUIT
h: TGET r1, t0
ADD r1, r1, 1
TSET t0, r1
XCHG t0
.data 0
