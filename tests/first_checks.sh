#!/usr/bin/env bash
# What can be seen before any proof, in seconds: the layout of code and definitions, files that no module names, texts that
# speak of what a reader has not, links, headings that are cited, the kit's identity and the promises that README.md names,
# the version, the names of wrong bodies, those that editors know, and that each must-fail edit can be applied. A line says
# what is not so; the last one counts the checks.
set -u
cd "$(dirname "$0")/.." || exit 1
room=$(mktemp -d)
trap 'rm -rf "$room"' EXIT
asked=()

# check WHAT COMMAND..: begins a check, which holds if the command prints nothing; else each line says what is not so. The
# checks run side by side
check() {
  asked+=("$1")
  shift
  "$@" >"$room/${#asked[@]}" 2>&1 &
}

# verdicts: waits for all checks, says in their order what is not so, and counts them
verdicts() {
  local at passed=0 found
  wait
  for at in "${!asked[@]}"; do
    found=$(cat "$room/$((at + 1))")
    if [ -z "$found" ]; then
      passed=$((passed + 1))
    else
      printf '%s:\n%s\n' "${asked[at]}" "$found"
    fi
  done
  echo "$passed passed, $((${#asked[@]} - passed)) failed"
  [ "$passed" -eq "${#asked[@]}" ]
}

sources() { find crates -path '*/out' -prune -o \( -name '*.rt' -o -name '*.antt' \) -print; }
texts() { git ls-files -co --exclude-standard | grep -E '\.(rt|antt|edit|md|sh|py|tsv|case|asm|yml)$|^Makefile$' | grep -v '^tests/first_checks.sh$'; }
documents() { ls README.md CONTRIBUTING.md CHANGELOG.md docs/*.md page/README.md crates/*/README.md; }

# the program rattle of the kit whose rt is called
rattle() { echo "$(dirname "$(readlink -f "$(command -v rt)")")/rattle"; }

# citations: texts that number a rule or a demand of papers which no reader has, or name a path of somebody's machine
citations() {
  texts | xargs grep -nE '(^|[^`A-Za-z0-9_])(R(1[0-6]|[1-9])|T[1-5]\.[0-9]|[DW][1-9][0-9]?)([^`A-Za-z0-9_]|$)|[Dd]ocument 0[0-9]|\b[Tt]he papers?\b'
  texts | xargs grep -nE '(^|[^A-Za-z0-9_.$}"])/(work|root|home/[a-z]+|opt)/'
}

# links: what a document links to, or names as a document, is there; TRUST.md is made (make trust)
links() {
  local file name
  for file in $(documents); do
    while read -r name; do
      [ "$(basename "$name")" = TRUST.md ] || [ -e "$name" ] || [ -e "$(dirname "$file")/$name" ] || echo "$file: no file $name"
    done < <(grep -oE '\]\([^)#:]+\)|[A-Za-z_/]+\.md' "$file" | sed 's/^](//; s/)$//' | sort -u)
  done
}

# counts: of crates, cases and edits, which README.md has not, since they change with each row; and those that BUILD would
# have, where nothing is counted
counts() {
  grep -nE '[0-9]+ (crates|rows of tables|transcripts|(are )?in `(must-fail|edits)/`)' README.md | sed 's/^/README.md:/'
  tests/counts.sh 2>&1 | grep -vE '^[1-9][0-9]* '
}

# kit: the logic in which all is proved; kits of other names have the same
kit() {
  local logic
  logic=$(rt version | sed -n 's/^.* \(logic [0-9a-f]*\)$/\1/p')
  grep -qF "\`$logic\`" README.md || echo "rt version says '$(rt version)', and README.md names another logic"
}

# modules: each file of definitions and of lemmas is named by its crate's Lib.antt; the prover refuses one that is not, after
# all below its crate is proved
modules() {
  local file name
  for file in crates/*/specs/*.antt crates/*/proofs/*.antt; do
    name=$(basename "$file" .antt)
    [ "$name" = Lib ] || grep -qxE "(pub )?mod $name" "$(dirname "$file")/Lib.antt" || echo "$file: no line 'mod $name' in Lib.antt"
  done
}

# version: that of each program and of the editors' extension is the newest of CHANGELOG.md, and so are those in the names
# of packages; no other file of code names one
version() {
  local file named newest
  newest=$(sed -n 's/^## //p' CHANGELOG.md | head -n 1)
  named=$(sed -n 's/^  "version": "\(.*\)",$/\1/p' editors/vscode/package.json)
  [ "$named" = "$newest" ] || echo "editors/vscode/package.json has version '$named', CHANGELOG.md has '$newest'"
  documents | xargs grep -oHE 'mta[-_]sim[-_][0-9]+\.[0-9]+\.[0-9]+' | grep -v "[-_]$newest\$" | sed "s/\$/ is not of version $newest/"
  sources | xargs grep -nHE '"[0-9]+\.[0-9]+\.[0-9]+"' | grep -vE '^crates/(lab_)?command_line/src/lib\.rt:[0-9]+:pub const VERSION'
  for file in crates/command_line/src/lib.rt crates/lab_command_line/src/lib.rt; do
    named=$(sed -n 's/^pub const VERSION: &str = "\([0-9.]*\)";$/\1/p' "$file")
    [ "$named" = "$newest" ] || echo "$file has version '$named', CHANGELOG.md has '$newest'"
  done
}

# crates that ARCHITECTURE.md has no line for
described() {
  local name
  for name in $(sed -n 's/^\([a-z_]*\).*:.*/\1/p' crates.txt); do
    grep -q "^| .*\`$name\`" docs/ARCHITECTURE.md || echo "docs/ARCHITECTURE.md: no line for $name"
  done
}

# wrong_bodies: edits that make test tries, and that docs/PROMISES.md does not name for their crate; and names of three words
# or more in its table of edits that no edit of the row's crates has
wrong_bodies() {
  local file crate name row crates
  for file in crates/*/must-fail/*.edit; do
    crate=$(echo "$file" | cut -d / -f 2)
    name=$(basename "$file" .edit)
    grep "^| \`$crate\` | " docs/PROMISES.md | grep -qF "\`$name\`" || echo "docs/PROMISES.md: no $name of $crate"
  done
  while read -r row; do
    crates=$(sed 's/ |$//; s/.* | //' <<<"$row" | tr -d '`,')
    for name in $(grep -oE '`[a-z0-9]+(_[a-z0-9]+){2,}`' <<<"$row" | tr -d '`'); do
      for crate in $crates; do
        [ ! -e "crates/$crate/edits/$name.edit" ] || continue 2
      done
      echo "docs/PROMISES.md: no edit $name of its row's crates"
    done
  done < <(sed -n '/^| wrong body under `edits/,/^$/p' docs/PROMISES.md | grep '`')
}

# about_crates: crates without a README.md, names in one that are neither in the crate's src nor a crate's, and calls that
# do not stand in the file that it names
about_crates() {
  local crate about word caller line
  for crate in $(sed -n 's/^\([a-z_]*\).*:.*/\1/p' crates.txt); do
    about=crates/$crate/README.md
    [ -e "$about" ] || { echo "$about is not there" && continue; }
    while read -r word; do
      grep -rqw -- "$word" "crates/$crate/src" || [ -e "crates/$crate/src/$word.rt" ] || grep -q "^$word[ :]" crates.txt ||
        echo "$about: no $word in src"
    done < <(sed '/^```/,/^```/d' "$about" | grep -oE '`[A-Za-z_]+(::[A-Za-z_]+)?`' | tr -d '`' | sed 's/::/\n/' | sort -u)
    caller=$(sed -n 's/^A caller, in `\(.*\)`:$/\1/p' "$about")
    while read -r line; do
      grep -qF -- "$line" "${caller:-/dev/null}" || echo "$about: '$line' is not in ${caller:-a file that it names}"
    done < <(sed -n '/^```/,/^```/{/^```/d;p}' "$about")
  done
}

# operation_table: the lines of the operation table at the head of its definition, where they are not the document's
operation_table() {
  local document definition
  document=$(sed -n '/^## One step$/,/^## [^O]/p' docs/MACHINE.md | grep '^| [0-9]')
  definition=$(sed -n '/^use /q; s/^--   //p' crates/processor/specs/Row.antt | awk '
    /^\| [0-9]/ { row = ""; is_row = 1 }
    is_row { sub(/^ +/, ""); row = row (row == "" ? "" : " ") $0 }
    is_row && /\|$/ { print row; is_row = 0 }')
  [ -n "$document" ] || echo "docs/MACHINE.md has no lines of a table below 'One step'"
  diff <(echo "$document") <(echo "$definition")
}

layout() { sources | xargs "$(rattle)" fmt --check; }
editors() { tests/editors.sh | grep -v '^the syntax files'; }

check "files in another layout than rt fmt's" layout
check "texts that cite what a reader has not" citations
check "links that lead nowhere" links
check "headings that are not there" python3 tests/headings.py
check "another logic" kit
check "versions" version
check "crates without a line" described
check "the table of crates" python3 tests/crates.py check
check "files of a crate that its Lib.antt does not name" modules
check "documents of crates" about_crates
check "wrong bodies without a name" wrong_bodies
check "the operation table, in docs/MACHINE.md (<) and in Row.antt (>)" operation_table
check "what to trust" python3 tests/trust --check
check "promises that README.md names, and roots of what to trust" python3 tests/trust --named
check "counts that change with each row" counts
check "words and sentences that are not plain, in documents and in code" python3 tests/plain_words.py
check "names that editors don't know" editors
check "what a trap means, in texts that differ" python3 tests/trap_texts.py
check "constants of the page" python3 page/embed.py --check
check "the cheat sheet and the pages of explain" python3 docs/words/make.py --check
check "completions and the man page of mta_lab" python3 share/make --check
check "edits that can't be applied" python3 tests/edits.py --apply
verdicts
