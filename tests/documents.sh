#!/usr/bin/env bash
# documents.sh FILE..: runs the commands that stand in documents, and compares what they print. In a block between lines
# of three backquotes a line that begins with "$ " is a command, lines behind it that begin with "> " are typed, and the
# others, up to the next command, are what it prints. A block whose first line says more than the backquotes is left out.
# The commands of a document are run by one shell in a copy of the examples, one after the other, with the exercises beside
# them. The last line counts the commands; where a document's print something else, one of them has failed. Who works
# through several documents does so in one folder: so no two of them may write a file of one name with other content. With
# PROGRAM=draft in the environment the drafts are called.
set -u
cd "$(dirname "$0")/.." || exit 1
root=$PWD
tests/built.sh ask || exit 1
work=$(mktemp -d)
trap 'rm -rf "$work"' EXIT
mkdir "$work/bin"
for name in $(tests/built.sh programs); do ln -s "$root/$(tests/built.sh path "$name")" "$work/bin"; done
export PATH="$work/bin:$PATH"
passed=0
failed=0

# script FILE: a shell script of the commands of a document, each followed by a line that marks its end
script() {
  awk '
    function close_command() {
      if (asked) print command (typed == "" ? "" : " <<\"= end of input\"\n" typed "= end of input")
      if (asked) print "echo \"= end of a command\""
      asked = 0
      typed = ""
    }
    /^```/ { close_command(); block = block ? 0 : $0 == "```" ? 1 : 2; next }
    block == 1 && sub(/^\$ /, "") { close_command(); command = $0; asked = 1; next }
    block == 1 && sub(/^> /, "") { typed = typed $0 "\n" }
  ' "$1"
}

# wanted FILE: what the document says that its commands print, in the same form
wanted() {
  awk '
    function close_command() { if (asked) print "= end of a command"; asked = 0 }
    /^```/ { close_command(); block = block ? 0 : $0 == "```" ? 1 : 2; next }
    block == 1 && /^\$ / { close_command(); asked = 1; next }
    block == 1 && asked && !/^> / { print }
  ' "$1"
}

# sums: of each file in the copy of the examples its checksum and its name, in order of the lines
sums() {
  (cd "$work/examples" && find . -type f -print0 | xargs -0 sha256sum) | LC_ALL=C sort
}

# lay_out: a new copy of the examples, with the exercises
lay_out() {
  rm -rf "$work/examples"
  cp -r examples exercises "$work"
  mv "$work/exercises" "$work/examples"
}

lay_out
sums >"$work/before"
: >"$work/files"
for file in "$@"; do
  lay_out
  script "$file" >"$work/script"
  wanted "$file" >"$work/wanted"
  commands=$(grep -c '^= end' "$work/wanted")
  (cd "$work/examples" && bash "$work/script") >"$work/printed" 2>&1
  if diff "$work/wanted" "$work/printed" >"$work/difference"; then
    [ "$commands" -eq 0 ] || echo "$file: $commands commands print what it says"
    passed=$((passed + commands))
  else
    echo "$file: its commands print something else (> stands before what they print):"
    cat "$work/difference"
    failed=$((failed + 1))
  fi
  sums | LC_ALL=C comm -13 "$work/before" - | sed "s|^|$file |" >>"$work/files"
done

# (of each file that documents leave: the document, the checksum, the name)
if awk '
  { name = substr($0, length($1) + length($2) + 6) }
  name in sum && sum[name] != $2 { print $1 " leaves " name " otherwise than " from[name]; found = 1 }
  !(name in sum) { sum[name] = $2; from[name] = $1 }
  END { exit found }' "$work/files"; then
  passed=$((passed + 1))
else
  failed=$((failed + 1))
fi

printed=$(mta_sim --version 2>&1)
newest=$(sed -n 's/^## /mta_sim /p' "$root/CHANGELOG.md" | head -n 1)
if [ "$printed" = "$newest" ]; then
  passed=$((passed + 1))
else
  echo "the program prints the version $printed, CHANGELOG.md has $newest"
  failed=$((failed + 1))
fi
echo "$passed passed, $failed failed"
[ "$failed" -eq 0 ]
