; Each processor begins at its entry, with one stream and the trap entry in its t0: the empty schedule.
.slim 3
.retry 1
.trap 1
.entry 2
.entry 0
QUIT
QUIT
QUIT
.data 7, 11
.data 9
