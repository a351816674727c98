; a countdown of 298 steps behind a first one, then a load that empties the only word, then an endless loop
        .slim 1
        .entry 0
        LIT r2, 149
count:  SUB.T r2, r2, 1
        SKIP NE, 0, count
        LOAD.S r3, r0, 0
stay:   SKIP ALWAYS, 0, stay
        .data 7
