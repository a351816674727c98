; Nothing that makes a program.
        .slim 4
; the end
