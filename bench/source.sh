#!/usr/bin/env bash
# Prints the longest source text: 65,536 instruction lines, each with a label, of sixteen forms again and again.
set -eu
awk 'BEGIN {
  count = split("LIT r1, 5;ADD r2, r1, 3;STORE.S r1, r0, 0 | ADD r1, r1, 1;LOAD.N r4, r5, -1;" \
    "SUB.T r0, r1, 11;SKIP NE, 0, -3;XGET r4;TLIT t1, 5;TSET t1, r2;MASK 4;QUIT;RESERVE r3, r2;" \
    "LITH r1, 5;LOAD.S r3, r2, 1;ADD.T r12, r13, 31 | SKIP NE, 0, 100;PTR r1, r2, r3", form, ";")
  print ".entry label_0"
  print ".data 0"
  for (n = 0; n < 65536; n++)
    printf "label_%d: %s\n", n, form[n % count + 1]
}'
