; A PURGE leaves the word empty at the end of its chain, whatever the control of its pointer; the word's trap bits and the
; words that forward stay. The chain limit lets it be forwarded once: the PURGE of word 2, which is forwarded twice, traps at the second word.
.profile 2
.slim 1
.chain 1
.entry 0
LIT r1, 9
LITH r2, 0x18000000  ; sync control
PURGE r1, r2, 0
LITH r3, 0xD0000000  ; future control, and both trap disables
PURGE r1, r3, 1
PURGE r1, r0, 3
PURGE r1, r0, 2
.data 5
.data 6, 12
.data 24, 3
.data 32, 3
.data 7
