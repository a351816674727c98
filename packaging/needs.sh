#!/usr/bin/env bash
# needs.sh processor|glibc PROGRAM..: prints what programs that the kit has built need to run, the most of each.
set -euo pipefail

# a program looks for the features of a level as it starts, and has that level's name for its message
processor() {
  local program
  for program in "$@"; do
    if ! grep -aoE 'x86-64-v[0-9]' "$program"; then
      echo "$program names no level of processors" >&2
      exit 1
    fi
  done | sort -u | tail -n 1
}

# the newest version of a symbol that they take from the C library, the one library that they may need
glibc() {
  local program others
  for program in "$@"; do
    others=$(readelf -d "$program" | sed -n 's/.*(NEEDED).*\[\(.*\)\]/\1/p' | grep -v '^libc\.so\.' || true)
    if [ -n "$others" ]; then
      echo "$program needs more than the C library: $others" >&2
      exit 1
    fi
    objdump -T "$program" | grep -oE 'GLIBC_[0-9.]+' | cut -d _ -f 2
  done | sort -uV | tail -n 1
}

"$@"
