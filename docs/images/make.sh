#!/usr/bin/env bash
# make.sh: makes play_race.png anew, the picture in README.md, docs/LAB.md and docs/PLAY.md: the page that README.md makes,
# at the end that loses an update; and play_race.txt, the texts that it shows, which the tests compare with those of the page
# (tests/pages/of_readme.py). Run it after a change of page/play. It needs chromium, Node and the program, or with
# PROGRAM=draft in the environment the draft.
set -eu
cd "$(dirname "$0")/../.."
tests/built.sh ask mta_lab
root=$PWD
program=$root/$(tests/built.sh path mta_lab)
picture=$root/docs/images/play_race.png
steps='0.0,1.0,0.0x2,1.0x2,0.0,1.0'
work=$(mktemp -d)
trap 'rm -rf "$work"' EXIT
cp examples/grading/submissions/racing.asm "$work/race.asm"
cd "$work"
echo 'word 8 2' >right.expect
"$program" play race.asm --out race.html --expect right.expect
chromium --headless --no-sandbox --disable-gpu --disable-lcd-text --hide-scrollbars --window-size=1400,936 \
  --virtual-time-budget=3000 --screenshot="$picture" "file://$work/race.html#$steps" 2>page.log || { cat page.log >&2 && exit 1; }
python3 "$root/tests/pages/of_readme.py" >"$root/docs/images/play_race.txt"
