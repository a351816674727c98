; A word that spells no instruction is its own handler: its second trap stops the stream, and then steps are skipped.
.slim 1
.trap 0
.entry 0
.word 0x1
.data 0
