; A client asks again and again, and a server answers.
        .slim 1
        .entry think
        .entry serve
        .data 0, 0              ; the question
        .data 0, 0              ; the answer
think:  ADD r1, r1, 0           ; no question yet
ask:    STORE.S r1, r0, 0
        LOAD.S r1, r0, 1        ; waits for the answer
        SKIP ALWAYS, 0, think
serve:  LOAD.S r1, r0, 0        ; waits for a question
        STORE.S r1, r0, 1
        SKIP ALWAYS, 0, serve
