; The count is there from the start on.
        .slim 1
        .entry done
        .entry done
        .data 0                 ; word 0: the lock, free while it is full
        .data 8                 ; word 1: the count
        .fill 2, 0, 1              ; words 2 and 3: mine

done:   QUIT
