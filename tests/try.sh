#!/usr/bin/env bash
# try.sh SOURCE SCHEDULE: builds both programs unproved, side by side. With mta_sim it assembles a source text, runs it by a
# schedule, and runs two program words; with mta_lab it tells the same run in words. The kit's command builds a program
# once for all files of a folder: each is the standard input of a run, whose arguments are the lines of NAME.args. The
# image goes from one run to the next in a folder outside them all.
set -u
cd "$(dirname "$0")/.." || exit 1
source=$1
schedule=$2
room=$(mktemp -d)
trap 'rm -rf "$room"' EXIT
mkdir "$room/mta_sim" "$room/mta_lab"

# a_case PROGRAM/NAME INPUT WORDS..: a run of a program; they take place in the order of their names
a_case() {
  cp "$2" "$room/$1"
  printf '%s\n' "${@:3}" >"$room/$1.args"
}

# runs_of PROGRAM: builds it and takes its runs; what they print, and what they complain of
runs_of() {
  (cd "crates/$1" && rt try --cases "$room/$1") >"$room/$1.said" 2>"$room/$1.complained"
}

for file in "$source" "$schedule"; do
  if [ ! -f "$file" ]; then echo "no file $file" && exit 1; fi
done
a_case mta_sim/1_asm /dev/null asm "$(realpath -- "$source")" "$room/image"
a_case mta_sim/2_run /dev/null run "$room/image" "$(realpath -- "$schedule")"
a_case mta_sim/3_words crates/mta_sim/stdin words
a_case mta_lab/4_view /dev/null view "$(realpath -- "$source")" "$(realpath -- "$schedule")"
echo "== building the programs unproved, about two minutes"
runs_of mta_lab &
lab=$!
if ! runs_of mta_sim; then
  cat "$room/mta_sim.complained"
  exit 1
fi
if grep '^mta_sim: ' "$room/mta_sim.complained" | head -n 1 | grep .; then exit 1; fi
sed -E -e "s|^== 1_asm\$|== mta_sim asm $source IMAGE|" -e "s|^== 2_run\$|== mta_sim run IMAGE $schedule|" \
  -e 's|^== 3_words$|== mta_sim words, on LIT r1, 5 and ADD r2, r1, 3|' "$room/mta_sim.said"
wait "$lab" || { cat "$room/mta_lab.complained" && exit 1; }
sed -E "s|^== 4_view\$|== mta_lab view $source $schedule|" "$room/mta_lab.said"
