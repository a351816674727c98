; A load of an empty word with the retry limit 0: it is blocked for ever, and no retries are counted.
.slim 1
.retry 0
.trap h
.entry 0
LOAD.S r3, r2, 1
QUIT
h: XGET r4
QUIT
.data 0
.data 0, 0
