#!/usr/bin/env bash
# build.sh [PROGRAM..]: proves what these programs need and no more, and builds them; both where none is named. It is rt ci
# over them and the crates below them alone, without tests and edits, in a folder of its own. A line is printed
# for each crate that is proved. The programs lie at crates/NAME/out/NAME then. Where they were built of the very same
# files nothing is done.
set -eu
cd "$(dirname "$0")/.."
root=$PWD
# (no draft is meant here)
unset PROGRAM
names=$(tests/built.sh names "$@")
mapfile -t programs <<<"$names"

if tests/built.sh check "${programs[@]}"; then
  echo "== built of these files before: ${programs[*]}"
  exit 0
fi
mapfile -t needed < <(tests/built.sh needed "${programs[@]}")
mkdir -p out
echo "== proving the ${#needed[@]} crates that these programs need: ${programs[*]}"
for name in "${programs[@]}"; do tests/built.sh stamp "$name" >"out/stamp.$name"; done
work=$(mktemp -d)
trap 'rm -rf "$work"' EXIT
tests/lay_out.sh "$work" "${needed[@]}"
(cd "$work" && "$root/tests/progress.sh" "$root/out/build.log" rt ci)
for name in "${programs[@]}"; do
  install -D -m 755 "$work/crates/$name/out/$name" "crates/$name/out/$name"
  tests/built.sh keep "$name" "$(cat "out/stamp.$name")"
  rm "out/stamp.$name"
done
