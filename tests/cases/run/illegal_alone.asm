; A word that spells no instruction, without a handler.
.slim 1
.entry 0
.word 0x1
.data 0
