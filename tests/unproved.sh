#!/usr/bin/env bash
# unproved.sh: runs the tests in Rattle (library_tests), and the single calls of the libraries that library_calls makes with
# ample memory, whose answers stand in its file stdout. The kit's rt try makes code of the sources; it stops at an overflow,
# an index out of bounds and an access to memory that is not there. The proofs of these crates are no part of the gate:
# nothing is shipped of them (make prove CRATES="library_tests library_calls" has them). The last line counts tests and calls.
set -u
cd "$(dirname "$0")/.." || exit 1
room=$(mktemp -d)
trap 'rm -rf "$room"' EXIT

# calls_as_written: whether each call ends as it has to; what differs is printed
calls_as_written() (
  cd crates/library_calls && mapfile -t words <args || exit 1
  rt try -- "${words[@]}" </dev/null >"$room/calls" 2>"$room/said" || tail -n 5 "$room/said"
  diff stdout "$room/calls"
)

(cd crates/library_tests && rt try --test) >"$room/tests" 2>&1
read -r passed failed <<<"$(sed -n 's/^test result: .* \([0-9]*\) passed; \([0-9]*\) failed;.*$/\1 \2/p' "$room/tests")"
[ "${failed:-1}" -eq 0 ] || cat "$room/tests"
lines=$(wc -l <crates/library_calls/stdout)
if calls_as_written; then passed=$((${passed:-0} + lines)); else failed=$((${failed:-0} + lines)); fi
echo "${passed:-0} passed, ${failed:-1} failed"
[ "${failed:-1}" -eq 0 ]
