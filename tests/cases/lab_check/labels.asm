; Labels.
        .entry start
        .data 0
start:  LIT r1, 0
again : ADD r1, r1, 1
2nd:    ADD r1, r1, 1
one: two: ADD r1, r1, 1
start:  ADD r1, r1, 1
: NOP
not-a-name: NOP
a_label_that_has_more_than_32_letters: NOP
        QUIT
