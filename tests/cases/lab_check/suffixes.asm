; Suffixes that an operation does not have, and what Profile 2 alone has.
        .chain 4
        .entry start
        .data 0
start:  LOAD.T r1, r0, 0
        LOAD.X r1, r0, 0
        TAGGET.N r1, r0, 0
        ADD.S r1, r1, 1
        QUIT.T
        PURGE r1, r0, 0
