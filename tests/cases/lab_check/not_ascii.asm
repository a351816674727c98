; Bytes above 7F, and other faults beside them.
        .entry start
        .data 0		; zählt
start:  LIT r1, 0	; é
	LÖAD r1, r0, 0
        LIT r1, 0–5
        QUIT r1
