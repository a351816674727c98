; A trap handler repairs a pointer and goes back to the word that trapped. Processor 1 has no handler.
; Look at: the pc after TRAPPED, which is the handler's, and after its XCHG; processor 1 is STOPPED at the same word.
        .slim 1
        .trap handler
        .entry start
        .entry lost
        .data 42                ; word 0
        .data 0                 ; word 1: its copy

start:  LIT r1, 1               ; no multiple of 8
        LOAD r2, r1, 0          ; traps with ALIGN the first time
        STORE r2, r0, 1
        QUIT

handler: XGET r5                ; why and where: 5 is ALIGN, and 256 times the address
        ANDN r1, r1, 7
        XCHG t0                 ; back to the word that trapped; the next trap goes on after this word
        SKIP ALWAYS, 0, handler

lost:   TLIT t0, 0xFFFFFFFF     ; names no handler
        LIT r1, 1
        LOAD r2, r1, 0
