#!/usr/bin/env bash
# build_facts.sh VERSION FOLDER NAME..: prints the file BUILD of a package: of which commit and by which kit the programs
# of these names were built, what the tests said of that commit and how many there are, and what the programs need. FOLDER
# has each of them as it is packed, without its symbols.
set -euo pipefail
cd "$(dirname "$0")/.."
version=$1
folder=$2
shift 2
commit=$(git rev-parse HEAD)
kit=$(rt version)
changes=$(git status --porcelain -- crates crates.txt HANDLES)
# whether out/built says that the programs were built of the crates that lie here, by this kit
if tests/built.sh check; then known=yes; else known=no; fi

sources() {
  case $known,$changes in
    no,*) echo "not known: nothing says that these programs were built of that commit" ;;
    yes,) echo "those of the commit" ;;
    *) echo "those of the commit, with changes" ;;
  esac
}

built_by() {
  if [ "$known" = yes ]; then echo "$kit"; else echo "not known"; fi
}

# the last line of the tests, which `make test` leaves in out/verdict with the commit and the kit that it was of
verdict() {
  local counts="" of="no commit" by="no kit"
  if [ "$known" = no ] || [ ! -s out/verdict ]; then
    echo "none of these programs"
    return
  fi
  { read -r counts && read -r of && read -r by; } <out/verdict || true
  case $of,$by,$changes in
    "$commit,$kit,") echo "$counts" ;;
    "$commit,$kit,"*) echo "$counts, but of the commit without its changes" ;;
    *) echo "$counts, but of $of, by $by" ;;
  esac
}

# what the tree has of crates, cases and edits, a line each
tests() {
  tests/counts.sh | sed '1s/^/tests      /; 1!s/^/           /'
}

sum() {
  sha256sum <"$1" | cut -d ' ' -f 1
}

programs() {
  local name
  for name in "$@"; do
    printf '%-10s sha256 %s\n' "$name" "$(sum "$folder/$name")"
    printf '           before its symbols were taken out: sha256 %s\n' "$(sum "crates/$name/out/$name")"
  done
}

# these fail where the programs need more than can be said here
processor=$(packaging/needs.sh processor "${@/#/$folder/}")
glibc=$(packaging/needs.sh glibc "${@/#/$folder/}")
cat <<END
mta_sim $version

commit     $commit
sources    $(sources)
built by   $(built_by)
verdict    $(verdict)
$(tests)
$(programs "$@")
processor  $processor
C library  glibc $glibc or later
END
