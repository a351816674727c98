; A stream that has reserved two more has started none yet.
.slim 4
.entry 0
LIT r2, 2
RESERVE r3, r2
TLIT t1, 6
CREATE t1, r2
CREATE t1, r2
CREATE t1, r2
QUITP
.data 0
