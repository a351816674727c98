; MASK writes the mask of the status word.
.slim 1
.entry 0
MASK 4
.data 0
