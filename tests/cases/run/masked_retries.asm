; A load of an empty word with BLOCKED masked: retries are counted up to the limit, and then it goes on being blocked.
.slim 1
.retry 2
.trap h
.entry 0
MASK 4
LOAD.S r3, r2, 1
QUIT
h: XGET r4
QUIT
.data 0
.data 0, 0
