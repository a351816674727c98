; QUITP ends the stream and keeps its reservation.
.slim 1
.entry 0
QUITP
.data 0
