#!/usr/bin/env bash
# built.sh WHAT [PROGRAM..]: tells whether programs that lie here were built of the files that lie here. Without a name
# both are meant. out/built.PROGRAM keeps it: a checksum of all that its proof reads, and the program's own. With
# PROGRAM=draft in the environment the drafts are meant (tests/draft.sh), for which only src/ counts.
#   programs                  prints the names of both, a line each
#   names [PROGRAM..]         prints these names, a line each, and stops at one that is no program's
#   needed PROGRAM..          prints the crates of these and those that they stand on, a line each
#   path PROGRAM              prints where it lies
#   stamp PROGRAM             prints the checksum of these crates' files and of the kit
#   keep PROGRAM STAMP        notes that the program was built of the files with this checksum
#   check PROGRAM..           holds where that was noted of each of these and of the files as they are now
#   none PROGRAM..            holds where none of these lies here
#   ask PROGRAM..             is check, with a sentence where it does not hold: of which programs, and what builds them
set -euo pipefail
cd "$(dirname "$0")/.."

programs() {
  sed -nE 's/^(mta_sim|mta_lab)[ :].*/\1/p' crates.txt
}

# are_programs NAME..
are_programs() {
  local name
  for name in "$@"; do
    [ -f "crates/$name/src/main.rt" ] || { echo "no program is called $name" >&2 && exit 1; }
    echo "$name"
  done
}

# in crates.txt a crate stands behind those that it uses
needed() {
  tac crates.txt | awk -F '[: ]+' -v programs="$*" '
    BEGIN { count = split(programs, names, " "); for (i = 1; i <= count; i++) needed[names[i]] }
    /^[a-z]/ && $1 in needed { print $1; for (i = 2; i <= NF; i++) needed[$i] }' | LC_ALL=C sort
}

# path PROGRAM
path() {
  if [ "$kind" = draft ]; then echo "out/draft/$1"; else echo "crates/$1/out/$1"; fi
}

# note PROGRAM: the file that keeps what it was built of
note() {
  if [ "$kind" = draft ]; then echo "out/draft/built.$1"; else echo "out/built.$1"; fi
}

# files PROGRAM: what it is built of, each name ended by a zero byte; for a draft no definition and no proof is read
files() {
  local folders
  mapfile -t folders < <(needed "$1" | sed 's|^|crates/|')
  if [ "$kind" = draft ]; then
    find "${folders[@]/%//src}" -type f -print0
  else
    find "${folders[@]}" HANDLES \( -name out -o -name must-fail -o -name edits -o -name README.md \) -prune \
      -o -type f -print0
  fi
}

# stamp PROGRAM: of the kit, of what the crates are said to use, and of all that they are built of
stamp() {
  {
    rt version
    grep -E "^($(needed "$1" | paste -sd '|'))[ :]" crates.txt
    files "$1" | LC_ALL=C sort -z | xargs -0 sha256sum
  } | sha256sum | cut -d ' ' -f 1
}

# record PROGRAM STAMP: what is kept of a program
record() {
  echo "$2 $(sha256sum <"$(path "$1")")"
}

# is_built PROGRAM: it is there, and was built of these files
is_built() {
  [ -x "$(path "$1")" ] && [ "$(cat "$(note "$1")" 2>/dev/null)" = "$(record "$1" "$(stamp "$1")")" ]
}

# ask PROGRAM..: of each that was not built of these files where it lies, and what builds them
ask() {
  local name missing=() why='' what
  for name in "$@"; do
    is_built "$name" && continue
    missing+=("$name")
    if [ -x "$(path "$name")" ]; then what="is not known to be built of the sources here"; else what="is not there"; fi
    why+="${why:+, }$(path "$name") $what"
  done
  [ ${#missing[@]} -gt 0 ] || return 0
  name="PROGRAMS=\"${missing[*]}\""
  what="make build $name proves and builds what is needed; or make draft $name, and then this with PROGRAM=draft"
  [ "$kind" != draft ] || what="make draft $name builds what is needed, unproved"
  echo "$why: $what" >&2
  return 1
}

what=$1
shift
kind=${PROGRAM:-}
case $kind in
  '' | draft) ;;
  *) echo "PROGRAM is '$kind', and draft is the one word that it may be" >&2 && exit 1 ;;
esac
[ $# -gt 0 ] || mapfile -t names < <(programs)
[ $# -eq 0 ] || names=("$@")
case $what in
  programs) programs ;;
  names) are_programs "${names[@]}" ;;
  needed) needed "${names[@]}" ;;
  path) path "$1" ;;
  stamp) stamp "$1" ;;
  keep) mkdir -p out && record "$1" "$2" >"$(note "$1")" ;;
  check) for name in "${names[@]}"; do is_built "$name" || exit 1; done ;;
  none) for name in "${names[@]}"; do [ ! -x "$(path "$name")" ] || exit 1; done ;;
  ask) ask "${names[@]}" ;;
esac
