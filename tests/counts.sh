#!/usr/bin/env bash
# counts.sh: how many crates, cases and edits that have to be refused there are, counted in the tree; a line each. They
# change with each row, so the file BUILD of a package has them, and no document.
set -u
cd "$(dirname "$0")/.." || exit 1

edits() { find crates -path "*/$1/*.edit" | wc -l; }
all() {
  echo "$(grep -cE '^[a-z]' crates.txt) crates that are proved"
  echo "$(find tests/cases -name '*.tsv' -print0 | xargs -0 cat | grep -cvE '^(#|$)') rows of tables below tests/cases"
  echo "$(find tests/cases -name '*.case' | wc -l) transcripts below tests/cases"
  echo "$(edits must-fail) edits in must-fail/ that make test has to see refused"
  echo "$(edits edits) edits in edits/ that make edits tries too"
}

all
