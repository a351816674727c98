#!/usr/bin/env bash
# proofs.sh [CRATE..]: proves every crate that is shipped from nothing, or those that are named and the ones below them, and
# runs the programs, and the tests in Rattle of crates that are named. It is rt ci in a folder of its own, without the edits:
# tests/edits.py tries those by the functions that they change, where rt ci would begin with the whole crate's proof once
# more. What is built comes back into the crates' out/. Crates of tests (below "Tests" in crates.txt) are run unproved by the
# gate (tests/unproved.sh).
# One crate is proved on each processor, with 5 GB of free memory for each, or on as many as RT_JOBS in the environment says.
# The kit by itself would plan on two to three times the memory that a proof takes, so one or two of the lab's crates in 24 GB.
# A kit that keeps what passed on this machine proves again only what has changed and the crates above it, and its line
# "rt: ok" says how much that was; with ANEW=1 in the environment all is done anew. out/minutes.tsv has the processor
# seconds of each crate.
set -u
cd "$(dirname "$0")/.." || exit 1
root=$PWD
# (no draft is meant here)
unset PROGRAM

# proofs_at_once: one for each processor that has the memory for it
proofs_at_once() {
  local of_memory
  of_memory=$(awk '/^MemAvailable:/ { print int($2 / 5000000) }' /proc/meminfo)
  echo $(($(nproc) < of_memory ? $(nproc) : of_memory > 1 ? of_memory : 1))
}

if [ $# -gt 0 ]; then
  mapfile -t crates < <(tests/built.sh needed "$@")
else
  mapfile -t crates < <(sed '/^# == Tests$/q' crates.txt | grep -oE '^[a-z][a-z0-9_]*')
fi
programs=()
stamps=()
for name in "${crates[@]}"; do
  [ -f "crates/$name/src/main.rt" ] || continue
  programs+=("$name")
  stamps+=("$(tests/built.sh stamp "$name")")
done
work=$(mktemp -d)
trap 'rm -rf "$work"' EXIT
tests/lay_out.sh "$work" "${crates[@]}"
# (a kit that keeps nothing does all anew each time, and has no word for it)
anew=
if [ -n "${ANEW:-}" ] && rt help 2>&1 | grep -q -e --anew; then anew=--anew; fi
RT_JOBS=${RT_JOBS:-$(proofs_at_once)}
export RT_JOBS
(cd "$work" && "$root/tests/progress.sh" "$root/out/test.log" python3 "$root/tests/minutes.py" watch rt ci $anew)
status=$?
for folder in "$work"/crates/*/out; do
  to=crates/$(basename "$(dirname "$folder")")/out
  mkdir -p "$to"
  for made in "$folder"/*; do
    rm -rf "${to:?}/$(basename "$made")"
    mv "$made" "$to"
  done
done
if [ "$status" -eq 0 ]; then
  for at in "${!programs[@]}"; do tests/built.sh keep "${programs[$at]}" "${stamps[$at]}"; done
fi
exit "$status"
