#!/usr/bin/env bash
# search_programs.sh NAME: prints a program whose schedules are searched.
#   philosophers   eight philosophers at eight forks, the last with the lower fork first
#   lock           four streams that each take a lock five times and count
#   adders         six streams that each add 1 to one word by FADD
set -eu

# streams COUNT LABEL: the lines of as many processors, which all begin at a label
streams() {
  echo '.slim 1'
  for ((p = 0; p < $1; p++)); do echo ".entry $2"; done
}

philosophers() {
  local last=7 p left right
  echo '.slim 1'
  for ((p = 0; p <= last; p++)); do echo ".entry p$p"; done
  printf '.fill 8, 0, 1\n.data 0\n'
  for ((p = 0; p <= last; p++)); do
    left=$((8 * p))
    right=$((8 * ((p + 1) % 8)))
    if [ "$p" -eq "$last" ]; then read -r left right <<<"$right $left"; fi
    printf 'p%d: LIT r1, %d\nLIT r2, %d\n' "$p" "$left" "$right"
    if [ "$p" -lt "$last" ]; then echo 'SKIP ALWAYS, 0, eat'; fi
  done
  printf 'eat: LOAD.S r0, r1, 0\nLOAD.S r0, r2, 0\nLIT r3, 1\nFADD.N r3, r0, 8\n'
  printf 'STORE.S r0, r2, 0\nSTORE.S r0, r1, 0\nQUIT\n'
}

lock() {
  streams 4 go
  printf '.data 0\n.data 0\ngo: LIT r4, 5\nagain: LOAD.S r1, r0, 0\nLOAD.N r2, r0, 1\nADD r2, r2, 1\n'
  printf 'STORE.N r2, r0, 1\nSTORE.S r1, r0, 0\nSUB.T r4, r4, 1\nSKIP NE, 0, again\nQUIT\n'
}

adders() {
  streams 6 go
  printf '.data 0\ngo: LIT r1, 1\nFADD.N r1, r0, 0\nQUIT\n'
}

"$1"
