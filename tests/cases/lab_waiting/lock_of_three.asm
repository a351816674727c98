; Three streams take a lock again and again.
        .slim 1
        .entry take
        .entry take
        .entry take
        .data 0                 ; lock: free while it is full
take:   LOAD.S r0, r0, 0
        STORE.S r0, r0, 0
        SKIP ALWAYS, 0, take
