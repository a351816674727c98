; A CREATE without a reserved stream traps before the word's store is asked for: word 0 keeps its value.
.slim 1
.entry 0
STORE.N r1, r0, 0 | CREATE t1, r1
.data 5
