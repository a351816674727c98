#!/usr/bin/env bash
# Wall time (the best of three runs) of the lab on texts with many names of data words: `check` of 4,000 names and as many
# lines that name one where none may stand, and `grade` of 20 submissions with 4,000 names. The expectations name the last.
# Usage: names.sh [LAB], by default the lab that was built of the files that are here; with PROGRAM=draft in the
# environment the draft.
set -eu
cd "$(dirname "$0")/.."
[ $# -gt 0 ] || tests/built.sh ask mta_lab
lab=${1:-$PWD/$(tests/built.sh path mta_lab)}
names=4000
submissions=20
work=$(mktemp -d)
trap 'rm -rf "$work"' EXIT

# lines FORMAT: a line for each name, with its number
lines() {
  local number
  for ((number = 0; number < names; number++)); do printf "$1\n" "$number"; done
}

# best WHAT STATUS COMMAND..: the least wall time of a command that ends with this status
best() {
  local what=$1 wanted=$2 least='' begin spent status
  shift 2
  for _ in 1 2 3; do
    begin=${EPOCHREALTIME/./}
    status=0
    "$@" >"$work/out" 2>"$work/errors" || status=$?
    spent=$((${EPOCHREALTIME/./} - begin))
    [ "$status" -eq "$wanted" ] || { echo "$what: status $status in place of $wanted"; exit 1; }
    if [ -z "$least" ] || [ "$spent" -lt "$least" ]; then least=$spent; fi
  done
  printf '%-58s %6d.%d ms\n' "$what" $((least / 1000)) $((least / 100 % 10))
}

data=$(lines '        .data 0 ; name%d')
printf '        .entry 0\n%s\n        QUIT\n' "$data" >"$work/right.asm"
printf '        .entry 0\n%s\n%s\n' "$data" "$(lines '        LOAD.N r1, name%d, 0')" >"$work/slips.asm"
mkdir "$work/submissions"
for ((number = 0; number < submissions; number++)); do cp "$work/right.asm" "$work/submissions/$number.asm"; done
printf 'finished\nword name%d 0\n' $((names - 1)) >"$work/wanted.expect"

best "check, $names names, and as many slips" 1 "$lab" check "$work/slips.asm"
best "check, $names names" 0 "$lab" check "$work/right.asm"
best "grade, $names names, $submissions submissions" 0 \
  "$lab" grade --seeds 1 --jobs 1 --expect "$work/wanted.expect" "$work"/submissions/*.asm
