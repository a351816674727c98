; The same program words in Profile 1, where the second one spells no instruction.
.slim 1
.entry 0
LIT r1, 9
.word 0x0C04000000000000
QUIT
.data 5
