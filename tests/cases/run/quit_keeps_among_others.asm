; Stream 1, between two others, quits and keeps its reservation: two of three reserved streams are left.
.slim 4
.entry 0
LIT r2, 2
RESERVE r3, r2
TLIT t1, 6
CREATE t1, r2
CREATE t1, r2
CREATE t1, r2
QUITP
.data 0
