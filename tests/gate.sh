#!/usr/bin/env bash
# The gate, make test: what needs no proof first, in seconds; then every proof; then the cases and the documents' commands on
# the programs that were built, and beside them the tests in Rattle, and the must-fail edits on what these leave of the
# processors. Where one of the first two parts fails the others are not begun. The last line counts all of it, and
# out/verdict keeps that line, the commit and the kit.
set -u
cd "$(dirname "$0")/.." || exit 1
# (no draft is meant here)
unset PROGRAM
mkdir -p out
rm -f out/verdict
begin=$SECONDS
passed=0
failed=0

# part WHAT COMMAND..: a part of the gate, whose last line has its counts; one that says none has failed
part() {
  local what=$1 from=$SECONDS counts
  shift
  echo "== $what"
  "$@" 2>&1 | tee out/part.log
  counts=$(tail -n 1 out/part.log | sed -n 's/^\([0-9]*\) passed, \([0-9]*\) failed$/\1 \2/p')
  read -r some others <<<"${counts:-0 1}"
  passed=$((passed + some))
  failed=$((failed + others))
  echo "== $what: $some passed, $others failed, $((SECONDS - from)) s"
  [ "$others" -eq 0 ]
}

finish() {
  local commit
  commit=$(git rev-parse HEAD 2>/dev/null) || commit="no commit"
  [ -z "$(git status --porcelain 2>/dev/null | head -n 1)" ] || commit="$commit and changes that are in no commit"
  printf '%s\n%s\n%s\n' "$passed passed, $failed failed" "$commit" "$(rt version)" >out/verdict
  rm -f out/part.log
  echo "the gate took $((SECONDS - begin)) s"
  echo "$passed passed, $failed failed"
  [ "$failed" -eq 0 ]
  exit
}

echo "== $(rt version), on $(nproc) processors"
part "what needs no proof" tests/first_checks.sh || finish
part "proofs" tests/proofs.sh || finish
tests/unproved.sh >out/unproved.log 2>&1 &
nice -n 19 python3 tests/minutes.py watch python3 tests/edits.py --gate >out/edits.log 2>&1 &
part "cases on the built program" python3 tests/runner
part "commands of the documents" tests/documents.sh README.md CONTRIBUTING.md CHANGELOG.md docs/*.md
wait
part "tests in Rattle, unproved" cat out/unproved.log
part "must-fail edits" cat out/edits.log
finish
