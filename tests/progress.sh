#!/usr/bin/env bash
# progress.sh LOG COMMAND..: runs a gate of the kit (rt ci), keeps all that it prints in LOG, and prints a line for each
# crate that is done, with its place in the whole and the seconds since the beginning. Where the command fails its whole
# log is printed, else its line "rt: ok", which says how much was done anew. The last line and the status are the command's
# own.
set -u
log=$1
shift
mkdir -p "$(dirname "$log")"
all=$(grep -cE '^[a-z]' crates.txt)
count=0

# told LINE: the line in short, where it says that a crate is proved, or what is done with it next
told() {
  if [[ $1 =~ ^rt:\ ([a-z_]+\ (NOT\ PROVED|proved))$ ]]; then
    count=$((count + 1))
    echo "[$count/$all] ${BASH_REMATCH[1]}, $SECONDS s"
  elif [[ $1 =~ ^rt:\ ([a-z_]+:\ its\ tests\ are.*) ]]; then
    echo "        ${BASH_REMATCH[1]}, $SECONDS s"
  fi
}

"$@" 2>&1 | tee "$log" | while IFS= read -r line; do told "$line"; done
status=${PIPESTATUS[0]}
if [ "$status" -ne 0 ]; then cat "$log"; else echo "whole log: $log"; grep '^rt: ok' "$log"; tail -n 1 "$log"; fi
exit "$status"
