#!/usr/bin/env bash
# lay_out.sh FOLDER CRATE..: copies to the empty folder what rt ci reads of these crates, but no edits
set -eu
cd "$(dirname "$0")/.."
folder=$1
shift
# (rt ci begins at the top of a repository)
mkdir "$folder/.git" "$folder/crates"
cp HANDLES "$folder"
grep -E "^($(IFS='|' && echo "$*"))[ :]" crates.txt >"$folder/crates.txt"
for name in "$@"; do
  mkdir "$folder/crates/$name"
  for part in src specs proofs data stdin stdout args status; do
    [ ! -e "crates/$name/$part" ] || cp -r "crates/$name/$part" "$folder/crates/$name"
  done
done
