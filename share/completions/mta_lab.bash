# completion of mta_lab for bash. Made by share/make of the table of commands in crates/lab_command_line

# the options of a command
_mta_lab_options() {
  case $1 in
    check) echo '--as --program --strict --json --color --help' ;;
    fmt) echo '--check --color --help' ;;
    schedule) echo '--seed --steps --color --help' ;;
    view)
      echo '--given --fair --seed --steps --from --to --only --word --why --columns --all --round --hex --json
        --color --help'
      ;;
    debug) echo '--given --fair --seed --steps --color --help' ;;
    dap) echo '--color --help' ;;
    lsp) echo '--color --help' ;;
    compare) echo '--given --seeds --steps --hex --json --color --help' ;;
    survey)
      echo '--given --seeds --from --steps --expect --explore --states --seconds --memory --hex --json --color
        --help'
      ;;
    explore)
      echo '--given --expect --from --states --seconds --memory --plain --waiting --keep --pages --dot --hex --json
        --color --help'
      ;;
    grade)
      echo '--expect --cases --given --require-names --seeds --steps --all --explore --thorough --states --seconds
        --memory --jobs --no-links --pages --format --undecided --feedback --hex --json --results --part --merge
        --color --help'
      ;;
    exercise) echo '--hint --page --play --reset --watch --folder --color --help' ;;
    page) echo '--given --seeds --fair --rounds --seed --steps --round --title --out --color --help' ;;
    picture) echo '--given --fair --rounds --seed --steps --from --to --title --out --color --help' ;;
    play) echo '--given --expect --from --states --title --goal --out --color --help' ;;
    gallery) echo '--exercises --examples --color --help' ;;
    asm) echo '--out --color --help' ;;
    explain) echo '--color --help' ;;
    word) echo '--color --help' ;;
    new) echo '--from --color --help' ;;
    *)
      echo 'check fmt schedule view debug dap lsp compare survey explore grade exercise page picture play gallery
        asm explain word new --color --help --version'
      ;;
  esac
}

# what an option of a command takes, or its argument of this number: `words` and which, `files` and how their names end,
# `folders`, or `text`; nothing, where the option takes no value
_mta_lab_value() {
  case "$1 $2" in
    *' --as') echo 'words source image schedule expectations' ;;
    *' --program' | 'schedule 2' | 'view 1' | 'debug 1' | 'compare 1' | 'survey 1' | 'explore 1' | 'grade '[0-9]* | \
      'page 1' | 'picture 1' | 'play 1') echo 'files .asm .image' ;;
    *' --color') echo 'words auto always never' ;;
    *' --seed' | *' --steps' | 'view --from' | 'survey --from' | 'picture --from' | *' --to' | *' --only' | \
      *' --word' | *' --why' | *' --round' | 'survey --seeds' | 'grade --seeds' | *' --states' | *' --seconds' | \
      *' --memory' | *' --jobs' | *' --part' | *' --hint' | *' --title' | 'word '[0-9]* | 'new 1') echo 'text' ;;
    *' --given') echo 'files .data' ;;
    'explore --from' | 'play --from' | 'view 2' | 'debug 2' | 'compare 2' | 'compare 3' | 'page 2' | 'page 3' | \
      'picture 2') echo 'files .schedule' ;;
    'new --from') echo 'words lock semaphore mailbox ticket barrier switch' ;;
    *' --expect') echo 'files .expect' ;;
    *' --keep' | *' --pages' | *' --cases' | *' --feedback' | *' --folder' | *' --exercises' | *' --examples' | \
      'gallery 1') echo 'folders' ;;
    *' --dot') echo 'files .dot' ;;
    *' --format') echo 'words text tsv json junit gradescope moodle' ;;
    *' --undecided') echo 'words right wrong' ;;
    *' --results') echo 'files .jsonl' ;;
    *' --page' | *' --play' | 'page --out' | 'play --out') echo 'files .html' ;;
    'picture --out') echo 'files .svg' ;;
    'asm --out') echo 'files .image' ;;
    *' --goal') echo 'words right wrong deadlock waiting stopped spinning looping broken' ;;
    'check '[0-9]*) echo 'files .asm .image .schedule .expect' ;;
    'fmt '[0-9]* | 'asm 1') echo 'files .asm' ;;
    'schedule 1') echo 'words rounds fair random' ;;
    'exercise 1')
      echo 'words 1 2 3 4 5 6 7 8 9 10 11 12 13 14 15 16 17 18 19 20 21 22 23 24 25 26 27 28 29 30 31'
      ;;
    'explain 1')
      echo 'words .N normal .F future .S sync .T test full empty full/empty r0 t0 SSW status pointer ADD SUB MUL AND
        OR XOR ANDN SHL SHR SAR TALLY LTS LTU PTR stream processor schedule seed state race lost_update lost
        unread_store unread torn_read torn finding waiting waits trap word displacement pc lock complete expectation
        expect claim ALWAYS EQ NE LT GE LE GT GEU LEU GTU NEG POS OV NOV Z N C V JUMP SKIP CALL XCHG TSET TGET XGET
        XR RESERVE CREATE QUIT QUITP MASK NOP LIT LITH TLIT .entry .data .fill .word .slim .retry .trap .profile
        .chain E1 NotAscii E2 Unknown E3 Operand E4 Range E5 TwoWriters E6 LabelTwice E7 LabelMissing E8 Directive
        E9 Limit E10 NoMemory 101 102 103 104 105 106 107 108 109 110 111 112 113 114 115 116 LOAD STORE FADD TAGGET
        TAGSET PURGE 1 PROGRAM 2 ILLEGAL 3 TRAP3 4 TRAP4 POINTER 5 ALIGN 6 RANGE 7 TRAP0 8 TRAP1 9 FORWARD 10 TRAP10
        DONE BLOCKED TRAPPED STOPPED SKIPPED deadlock starvation starving starve fairness fair response overtaking
        overtake overtakes livelock spinning'
      ;;
  esac
}

# the files and folders whose names begin so, those with one of these endings if there are any
_mta_lab_files() {
  local current=$1 ending
  shift
  # a folder gets a slash and no blank, and a name with blanks is quoted
  compopt -o filenames 2>/dev/null
  COMPREPLY=()
  for ending; do
    mapfile -t -O "${#COMPREPLY[@]}" COMPREPLY < <(compgen -f -X "!*$ending" -- "$current")
  done
  if [ "${#COMPREPLY[@]}" -eq 0 ] && [ $# -gt 0 ]; then
    mapfile -t COMPREPLY < <(compgen -f -- "$current")
  else
    mapfile -t -O "${#COMPREPLY[@]}" COMPREPLY < <(compgen -d -- "$current")
  fi
}

_mta_lab() {
  local current=${COMP_WORDS[COMP_CWORD]} command='' option='' count=1 value i word
  for ((i = 1; i < COMP_CWORD; i++)); do
    word=${COMP_WORDS[i]}
    if [ "$word" = = ]; then
      continue
    elif [ -n "$option" ]; then
      option=''
    elif [[ $word = -?* ]]; then
      [ -z "$(_mta_lab_value "$command" "$word")" ] || option=$word
    elif [ -z "$command" ]; then
      command=$word
    else
      count=$((count + 1))
    fi
  done
  # --option=value comes as three words
  [ "$current" != = ] || current=''
  if [ -n "$option" ]; then
    value=$(_mta_lab_value "$command" "$option")
  elif [ -z "$command" ] || [[ $current = -* ]]; then
    value="words $(_mta_lab_options "$command")"
  else
    value=$(_mta_lab_value "$command" "$count")
  fi
  # shellcheck disable=SC2086 # the endings are words of their own
  case ${value%% *} in
    words) mapfile -t COMPREPLY < <(compgen -W "${value#words}" -- "$current") ;;
    files) _mta_lab_files "$current" ${value#files} ;;
    folders) _mta_lab_files "$current" ;;
    *) COMPREPLY=() ;;
  esac
}
complete -F _mta_lab mta_lab
