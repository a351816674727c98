; Sixteen processors of 128 streams each: the last one starts as many as there are, the others have not begun.
.slim 128
.entry 0
.entry 0
.entry 0
.entry 0
.entry 0
.entry 0
.entry 0
.entry 0
.entry 0
.entry 0
.entry 0
.entry 0
.entry 0
.entry 0
.entry 0
.entry 0
LIT r2, 200
RESERVE r3, r2
TLIT t1, 5
CREATE t1, r2
SKIP ALWAYS, 0, -2
QUIT
.data 0
