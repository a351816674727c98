; QUIT ends the stream and its reservation: a stream that is idle holds zeros only, and its steps are skipped.
.slim 1
.entry 0
LIT r1, 5
ADD r2, r1, 3
QUIT
.data 0
