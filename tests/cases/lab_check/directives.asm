; Directives that stand twice, and more than there may be.
        .profile 2
        .slim 4
        .retry 2
        .entry 0
        .fill 262144, 0, 1
        .data 7
        QUIT
        .slim 8
        .profile 2
        .retry 2
