; Hand over one number. The task is in task.md.
        .slim 1
        .entry give             ; processor 0 begins here
        .entry take             ; processor 1 begins here
        .data 0, 0              ; the box
        .data 7                 ; the number
        .data 0                 ; where it goes

give:   QUIT                    ; write here what processor 0 does

take:   QUIT                    ; write here what processor 1 does
