#!/usr/bin/env bash
# Wall time (the best of some runs), instructions and peak memory of the tool on its longest inputs, and of the machine's
# steps; what an editor waits for, and what classes take. Instructions are counted by valgrind's callgrind, where it is
# installed: they do not depend on the machine's load. With PROGRAM=draft in the environment the drafts are measured.
set -eu
cd "$(dirname "$0")/.."
tests/built.sh ask mta_sim mta_lab library_calls
tool=$PWD/$(tests/built.sh path mta_sim)
lab=$PWD/$(tests/built.sh path mta_lab)
parts=$PWD/$(tests/built.sh path library_calls)
[ -z "${PROGRAM:-}" ] || echo "these are drafts, which are slower than what is proved and built"
work=$(mktemp -d)
trap 'rm -rf "$work"' EXIT

# best RUNS COMMAND..: the least wall time in microseconds; standard output goes to $work/out
best() {
  local runs=$1 least='' begin spent
  shift
  for ((run = 0; run < runs; run++)); do
    begin=${EPOCHREALTIME/./}
    "$@" >"$work/out"
    spent=$((${EPOCHREALTIME/./} - begin))
    if [ -z "$least" ] || [ "$spent" -lt "$least" ]; then least=$spent; fi
  done
  echo "$least"
}

# peak COMMAND..: the most memory that it held, in kilobytes
peak() {
  if [ -x /usr/bin/time ]; then
    /usr/bin/time -f %M "$@" 2>&1 >/dev/null | tail -1
  else
    echo 0
  fi
}

# instructions COMMAND..: how many it runs; 0 where callgrind is not installed
instructions() {
  if command -v valgrind >/dev/null; then
    valgrind --tool=callgrind --callgrind-out-file=/dev/null "$@" 2>&1 >/dev/null | sed -n 's/.*Collected : \([0-9]*\).*/\1/p'
  else
    echo 0
  fi
}

# report WHAT MICROSECONDS INSTRUCTIONS COUNT OF KILOBYTES: the instructions are those of COUNT things
report() {
  printf '%-58s %6d.%d ms %7d instructions a %-5s %4d.%d MB\n' "$1" $(($2 / 1000)) $(($2 / 100 % 10)) $(($3 / $4)) "$5" \
    $(($6 / 1024)) $(($6 * 10 / 1024 % 10))
}

# steps WHAT: 1,000,000 steps, by the difference of 101 rounds and 1; their instructions by that of 2 rounds and 1
steps() {
  local one many once twice
  one=$(best 3 "$parts" bench machine "$1" 1)
  many=$(best 3 "$parts" bench machine "$1" 101)
  once=$(instructions "$parts" bench machine "$1" 1)
  twice=$(instructions "$parts" bench machine "$1" 2)
  report "machine, 1000000 steps, $1 loop on 16 processors" $(((many - one) / 100)) $((twice - once)) 1000000 step \
    "$(peak "$parts" bench machine "$1" 1)"
}

# recorded: 1,000,000 recorded steps of the loop in which each third step asks the memory, with its history
recorded() {
  local one many once twice
  one=$(best 3 "$parts" bench record alone 1)
  many=$(best 3 "$parts" bench record alone 11)
  once=$(instructions "$parts" bench record alone 1)
  twice=$(instructions "$parts" bench record alone 2)
  report "recorded, 1000000 steps, each_third_asks loop" $(((many - one) / 10)) $((twice - once)) 1000000 step \
    "$(peak "$parts" bench record alone 1)"
}

# gathered WHICH HOW: a schedule of 1,000,000 recorded steps, by the difference of a run that is gathered and one that is
# not; WHICH is alone where one stream runs, and alternating where two take turns
gathered() {
  local alone both once twice count
  alone=$(best 3 "$parts" bench record "$1" 11)
  both=$(best 3 "$parts" bench gather "$1" 11)
  count=$(sed 's/.* of //' "$work/out")
  once=$(instructions "$parts" bench record "$1" 1)
  twice=$(instructions "$parts" bench gather "$1" 1)
  report "gather, $count steps and entries, $2" $(((both - alone) / 11)) $((twice - once)) "$count" each \
    $(($(peak "$parts" bench gather "$1" 1) - $(peak "$parts" bench record "$1" 1)))
}

# local_record: what 1,000,000 steps of one stream that asks nothing take, beside the room that is only reserved
local_record() {
  printf '%-58s %d KB\n' "record of 1000000 local steps of one stream" \
    $(($(peak "$parts" bench record local 1) - $(peak "$parts" bench record local 0)))
}

# copies WHAT: a copy of the largest memory, or of as many bytes in one list, by the difference of 101 copies and 1
copies() {
  local one many
  one=$(best 5 "$parts" bench copy "$1" 1)
  many=$(best 5 "$parts" bench copy "$1" 101)
  printf '%-58s %6d us, %d KB\n' "copy of $1, 2.2 MB" $(((many - one) / 100)) $((($(peak "$parts" bench copy "$1" 101) - $(peak "$parts" bench copy "$1" 1)) / 100))
}

# search PROGRAM [OPTION]: all ends of a program, or with --plain all its worlds
search() {
  local program=$1 head worlds steps
  shift
  # (a deadlock has a status of its own)
  head=$("$lab" explore "$@" "$program" | head -n 1) || true
  worlds=$(sed -E 's/.*: ([0-9]+) states.*/\1/' <<<"$head")
  steps=$(sed -E 's/.*, ([0-9]+) steps.*/\1/' <<<"$head")
  report "lab: explore${*:+ $*} $(basename "$program"), $worlds states" "$(best 3 "$lab" explore "$@" "$program" || true)" \
    "$(instructions "$lab" explore "$@" "$program")" "$steps" step "$(peak "$lab" explore "$@" "$program" || true)"
}

# play PROGRAM: a page with all states of a program; how large it gets
play() {
  local name out=$work/page.html states
  name=$(basename "$1" .asm)
  "$lab" play "$1" --out "$out" >"$work/out"
  states=$(sed -nE 's/.*"counted":\{"states":([0-9]+),.*/\1/p' "$out")
  report "lab: play $name, $states states, $(stat -c %s "$out") bytes" "$(best 3 "$lab" play "$1" --out "$out")" \
    "$(instructions "$lab" play "$1" --out "$out")" "$states" state "$(peak "$lab" play "$1" --out "$out")"
}

# searches: the examples, and programs of a homework's size
searches() {
  local name
  for name in lock fetch_add readers_writer barrier bounded_buffer philosophers; do
    search "examples/$name.asm"
  done
  for name in philosophers lock adders; do
    bench/search_programs.sh "$name" >"$work/longer_$name.asm"
    search "$work/longer_$name.asm"
  done
  for name in lock fetch_add readers_writer; do search "examples/$name.asm" --plain; done
  # (who can wait forever: two that poll, three with tickets, readers and writers)
  for name in peterson tickets writers_first; do search "tests/cases/lab_waiting/$name.asm" --waiting; done
  for name in lock fetch_add; do play "examples/$name.asm"; done
}

# round KIND WHICH: the microseconds of one round, by the difference of 11 rounds and 1
round() {
  local one many
  one=$(best 3 "$parts" bench "$1" "$2" 1)
  many=$(best 3 "$parts" bench "$1" "$2" 11)
  echo $(((many - one) / 10))
}

# at_once WHICH LOOP: 16 processors at once with 62,500 steps each, beside a machine that takes as many steps
at_once() {
  local machine drive threaded
  machine=$(round machine "$2")
  drive=$(round drive "$2")
  threaded=$(round threaded "$2")
  printf '%-58s %6d.%d ms; a machine %d.%d ms; with the schedule %d.%d ms\n' "threads, 1000000 steps, each $1 asks, 16 processors" \
    $((drive / 1000)) $((drive / 100 % 10)) $((machine / 1000)) $((machine / 100 % 10)) $((threaded / 1000)) \
    $((threaded / 100 % 10))
}

# rounds WHAT: the time of one round, by the difference of 11 rounds and 1
rounds() {
  local one many once twice bytes
  one=$(best 3 "$parts" bench image "$1" 1)
  many=$(best 3 "$parts" bench image "$1" 11)
  bytes=$(sed 's/.* of //' "$work/out")
  once=$(instructions "$parts" bench image "$1" 1)
  twice=$(instructions "$parts" bench image "$1" 2)
  report "$1 the largest image, $bytes bytes" $(((many - one) / 10)) $((twice - once)) "$bytes" byte "$(peak "$parts" bench image "$1" 1)"
}

# sessions WHAT: 1,000,000 steps, each time in a session of the debugger in which nothing has run, by the difference of 11
# rounds and 1
sessions() {
  local one many once twice
  one=$(best 3 "$parts" bench debug "$1" 1)
  many=$(best 3 "$parts" bench debug "$1" 11)
  once=$(instructions "$parts" bench debug "$1" 1)
  twice=$(instructions "$parts" bench debug "$1" 2)
  report "debug $1, 1000000 steps of the fetch_add loop" $(((many - one) / 10)) $((twice - once)) 1000000 step \
    "$(peak "$parts" bench debug "$1" 1)"
}

# again WHAT HOW: what one session does that has been at the end of its 1,000,000 steps, by the difference of 11 rounds and 1
again() {
  local one many once twice count
  one=$(best 3 "$parts" bench debug "$1" 1)
  many=$(best 3 "$parts" bench debug "$1" 11)
  count=$(sed 's/.* of //' "$work/out")
  once=$(instructions "$parts" bench debug "$1" 1)
  twice=$(instructions "$parts" bench debug "$1" 2)
  report "debug $1, $2: $count steps" $(((many - one) / 10)) $((twice - once)) "$count" step "$(peak "$parts" bench debug "$1" 1)"
}

# pair HOW: two processors run at once, with one step in three a fetch-and-add on one word; on all cores, and on one
# where taskset is installed. No instructions are counted: how many a waiting thread runs hangs on the machine's load.
pair() {
  local all one=0
  all=$(best 5 "$parts" bench "$1" two 1)
  if command -v taskset >/dev/null; then one=$(best 5 taskset -c 0 "$parts" bench "$1" two 1); fi
  printf '%-58s %6d.%d ms on all cores, %d.%d ms on one\n' "2 processors at once $1, 1000000 steps" \
    $((all / 1000)) $((all / 100 % 10)) $((one / 1000)) $((one / 100 % 10))
}

# surveys: 1,000 schedules of 500 random steps each, on one core and on all of them, beside the machine's own steps
surveys() {
  local one all few many
  one=$(best 3 taskset -c 0 "$lab" survey "$work/four.asm" --seeds 1000 --steps 500 || true)
  all=$(best 3 "$lab" survey "$work/four.asm" --seeds 1000 --steps 500 || true)
  few=$(instructions "$lab" survey "$work/four.asm" --seeds 4 --steps 500)
  many=$(instructions "$lab" survey "$work/four.asm" --seeds 14 --steps 500)
  report "lab: survey of 1000 seeds, 500 steps each, one core" "$one" $((many - few)) 5000 step \
    "$(peak "$lab" survey "$work/four.asm" --seeds 1000 --steps 500)"
  printf '%-58s %6d.%d ms\n' "  on all cores" $((all / 1000)) $((all / 100 % 10))
}

# views: a run of 100,000 steps as lines
views() {
  local few many
  few=$(instructions "$lab" view "$work/four.asm" --fair --steps 1000)
  many=$(instructions "$lab" view "$work/four.asm" --fair --steps 11000)
  report "lab: view of 100000 steps" "$(best 3 "$lab" view "$work/four.asm" --fair --steps 100000 || true)" \
    $((many - few)) 10000 step "$(peak "$lab" view "$work/four.asm" --fair --steps 100000)"
}

command -v valgrind >/dev/null || echo "valgrind is not installed: no instructions are counted, and 0 is printed for them"

bench/words_input.sh >"$work/words"
words() { "$tool" words <"$work/words"; }
export tool work
lines=$(wc -l <"$work/words")
report "words, $lines lines" "$(best 10 words)" "$(instructions "$tool" words <"$work/words")" "$lines" line \
  "$(peak "$tool" words <"$work/words")"

steps arithmetic
steps fetch_add
steps each_third_asks
recorded
gathered alone '16 processors'
gathered alternating 'streams in turn'
local_record
copies memory
copies numbers
at_once fiftieth each_fiftieth_asks
at_once third each_third_asks
pair through_lock
pair in_turn
for what in go continue 1_breakpoint 64_breakpoints 1_watch 64_watches; do
  sessions "$what"
done
again places 'g to 20 places'
again back 'back to the start, and g to the end'
rounds write
rounds read

bench/source.sh >"$work/source"
lines=$(wc -l <"$work/source")
report "asm, $lines lines, $(wc -c <"$work/source") bytes" "$(best 10 "$tool" asm "$work/source" "$work/image")" \
  "$(instructions "$tool" asm "$work/source" "$work/image")" "$lines" line "$(peak "$tool" asm "$work/source" "$work/image")"
report "list, the same image" "$(best 10 "$tool" list "$work/image")" "$(instructions "$tool" list "$work/image")" "$lines" \
  line "$(peak "$tool" list "$work/image")"

printf '.entry 0\nADD r1, r1, 1\nSUB.T r0, r1, 11 | SKIP ALWAYS, 0, -2\n.data 0\n' >"$work/loop"
"$tool" asm "$work/loop" "$work/loop_image"
echo '0 0 1000000' >"$work/schedule"
spent=$(best 5 "$tool" run "$work/loop_image" "$work/schedule")
report "run, 1000000 steps, $(wc -c <"$work/out") bytes" "$spent" \
  "$(instructions "$tool" run "$work/loop_image" "$work/schedule")" 1000000 line \
  "$(peak "$tool" run "$work/loop_image" "$work/schedule")"

{
  echo '.slim 1'
  for ((p = 0; p < 16; p++)); do echo '.entry 0'; done
  printf 'ADD r1, r1, 1\nADD r1, r1, 1\nFADD.N r1, r0, 0 | SKIP ALWAYS, 0, -3\n.data 0\n'
} >"$work/third"
"$tool" asm "$work/third" "$work/third_image"
spent=$(best 3 "$tool" threads "$work/third_image" 62500 "$work/schedule")
entries=$(grep -c DONE "$work/out")
printf '%-58s %6d.%d ms, %d MB, at most 260 bytes an entry and 8 a step: %d MB\n' \
  "threads, 1000000 steps, $entries entries, $(wc -c <"$work/out") bytes" $((spent / 1000)) $((spent / 100 % 10)) \
  $(($(peak "$tool" threads "$work/third_image" 62500 "$work/schedule") / 1024)) $(((260 * entries + 8000000) / 1048576))

# four processors that add to one word for ever
printf ' .entry 0\n .entry 0\n .entry 0\n .entry 0\n LIT r1, 1\nmore: FADD.N r2, r0, 0 | ADD r3, r3, r1\n SKIP ALWAYS, 0, more\n .data 0\n' >"$work/four.asm"
surveys
views
searches
report "lab: check, 65536 lines" "$(best 3 "$lab" check "$work/source" || true)" \
  "$(instructions "$lab" check "$work/source")" 65536 line "$(peak "$lab" check "$work/source")"
bench/names.sh "$lab"
bench/language.py "$lab"
# (whole classes would take a draft hours)
if [ -z "${PROGRAM:-}" ]; then bench/class.py "$lab"; else bench/class.py --task counter --count 20 --every 4 "$lab"; fi
