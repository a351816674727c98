#!/usr/bin/env bash
# Looks whether the syntax files of the editors are those that editors/make makes of the assembler's table of names, and
# whether the cheat sheet has each of these names.
set -eu
cd "$(dirname "$0")/.."
failed=0
python3 editors/make --check || failed=1
names=$(grep -oE '=> "\.?[A-Za-z]+"' crates/asm_line/src/names.rt | sed -E 's/=> "\.?//; s/"//' | sort -u)
for name in $names; do
  case $name in N | F | S | T) continue ;; esac
  if ! grep -qw -- "$name" docs/CHEAT_SHEET.md; then
    echo "docs/CHEAT_SHEET.md: no $name"
    failed=1
  fi
done
[ "$failed" -eq 0 ] && echo "the syntax files and the cheat sheet have all $(echo "$names" | wc -l) names"
exit "$failed"
