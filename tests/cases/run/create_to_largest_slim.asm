; CREATE until the current streams are as many as the reserved ones, with the largest slim: then it traps.
.slim 128
.entry 0
LIT r2, 200
RESERVE r3, r2
TLIT t1, 5
CREATE t1, r2
SKIP ALWAYS, 0, -2
QUIT
.data 0
