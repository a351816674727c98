; One .entry line too many.
        .slim 1
        .entry lead
        .entry lead
        .entry lead2
        .entry follow1
        .entry follow2
        .data 0, 0              ; the name of a leader, for a follower
        .data 0, 0              ; the name of a follower, for a leader
        .data 0                 ; the door
        .data 0                 ; how many dance
        .data 1                 ; leader 1: its name, at the end that of its partner
        .data 2                 ; leader 2
        .data 11                ; follower 1
        .data 12                ; follower 2

; r1: how far my word is from [32]
lead2:  LIT r1, 8
lead:   LOAD.N r2, r1, 4        ; r2: my name
        LOAD.S r0, r0, 2        ; takes the door: one leader at a time
        STORE.S r2, r0, 0       ; says its name
        LOAD.S r3, r0, 1        ; r3: the name of the follower who has taken it
        STORE.S r0, r0, 2       ; puts the door back
        SKIP ALWAYS, 0, dance

follow1: LIT r1, 16
        SKIP ALWAYS, 0, follow
follow2: LIT r1, 24
follow: LOAD.N r2, r1, 4        ; r2: my name
        LOAD.S r3, r0, 0        ; r3: the name of a leader
        STORE.S r2, r0, 1       ; answers that one

dance:  STORE.N r3, r1, 4 | ADD r4, r0, 1       ; the name of my partner
        FADD.N r4, r0, 3        ; dances
        SUB r4, r0, 1
        FADD.N r4, r0, 3 | QUIT ; has danced
