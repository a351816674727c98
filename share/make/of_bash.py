"""The completion of mta_lab for bash."""

LINE = 116

HEAD = """\
# completion of mta_lab for bash. Made by share/make of the table of commands in crates/lab_command_line

# the options of a command
_mta_lab_options() {
  case $1 in
%s
  esac
}

# what an option of a command takes, or its argument of this number: `words` and which, `files` and how their names end,
# `folders`, or `text`; nothing, where the option takes no value
_mta_lab_value() {
  case "$1 $2" in
%s
  esac
}
"""
# how the words of a line are gone through, which option stands before the current one, and what is offered for it
TAIL = r"""
# the files and folders whose names begin so, those with one of these endings if there are any
_mta_lab_files() {
  local current=$1 ending
  shift
  # a folder gets a slash and no blank, and a name with blanks is quoted
  compopt -o filenames 2>/dev/null
  COMPREPLY=()
  for ending; do
    mapfile -t -O "${#COMPREPLY[@]}" COMPREPLY < <(compgen -f -X "!*$ending" -- "$current")
  done
  if [ "${#COMPREPLY[@]}" -eq 0 ] && [ $# -gt 0 ]; then
    mapfile -t COMPREPLY < <(compgen -f -- "$current")
  else
    mapfile -t -O "${#COMPREPLY[@]}" COMPREPLY < <(compgen -d -- "$current")
  fi
}

_mta_lab() {
  local current=${COMP_WORDS[COMP_CWORD]} command='' option='' count=1 value i word
  for ((i = 1; i < COMP_CWORD; i++)); do
    word=${COMP_WORDS[i]}
    if [ "$word" = = ]; then
      continue
    elif [ -n "$option" ]; then
      option=''
    elif [[ $word = -?* ]]; then
      [ -z "$(_mta_lab_value "$command" "$word")" ] || option=$word
    elif [ -z "$command" ]; then
      command=$word
    else
      count=$((count + 1))
    fi
  done
  # --option=value comes as three words
  [ "$current" != = ] || current=''
  if [ -n "$option" ]; then
    value=$(_mta_lab_value "$command" "$option")
  elif [ -z "$command" ] || [[ $current = -* ]]; then
    value="words $(_mta_lab_options "$command")"
  else
    value=$(_mta_lab_value "$command" "$count")
  fi
  # shellcheck disable=SC2086 # the endings are words of their own
  case ${value%% *} in
    words) mapfile -t COMPREPLY < <(compgen -W "${value#words}" -- "$current") ;;
    files) _mta_lab_files "$current" ${value#files} ;;
    folders) _mta_lab_files "$current" ;;
    *) COMPREPLY=() ;;
  esac
}
complete -F _mta_lab mta_lab
"""


def value_text(value):
    """What `_mta_lab_value` prints of a value; nothing of an option that has none."""
    return " ".join([value.kind, *value.words, *value.endings]) if value else ""


def wrapped(pieces, between, end, first, rest):
    """Lines of these pieces, none of which is broken: with `between` between them, and `end` at the end of all lines
    but the last."""
    lines = [first + pieces[0]]
    for piece in pieces[1:]:
        if len(lines[-1] + between + piece) > LINE:
            lines[-1] += end
            lines.append(rest + piece)
        else:
            lines[-1] += between + piece
    return lines


def arm(patterns, text):
    """An arm of a case that prints a text."""
    *lines, last = wrapped(patterns, " | ", " | \\", "    ", "      ")
    if len(f"{last}) echo '{text}' ;;") <= LINE:
        return "\n".join([*lines, f"{last}) echo '{text}' ;;"])
    said = wrapped(f"'{text}'".split(" "), " ", "", "      echo ", "        ")
    return "\n".join([*lines, f"{last})", *said, "      ;;"])


def option_patterns(commands, shared):
    """By what is printed, the patterns of the options that take it. One that takes the same in all commands has one."""
    taken = {}
    for command in commands:
        for option in [*command.options, shared]:
            taken.setdefault(option.name, {}).setdefault(value_text(option.value), []).append(command.name)
    found = {}
    for name, by_text in taken.items():
        for text, of in by_text.items():
            alike = [f"*' --{name}'"] if len(by_text) == 1 else [f"'{command} --{name}'" for command in of]
            found.setdefault(text, []).extend(alike if text else [])
    return {text: patterns for text, patterns in found.items() if text}


def position_patterns(commands):
    """By what is printed, the patterns of the arguments that are no options."""
    found = {}
    for command in commands:
        for i, argument in enumerate(command.positions, 1):
            number = "'[0-9]*" if argument.form in ("Several", "AnyNumber") else f"{i}'"
            found.setdefault(value_text(argument.value), []).append(f"'{command.name} {number}")
    return found


def completion(commands, shared):
    options = [arm([command.name], " ".join(f"--{it.name}" for it in [*command.options, shared]) + " --help")
               for command in commands]
    options.append(arm(["*"], " ".join(command.name for command in commands) + f" --{shared.name} --help --version"))
    values = option_patterns(commands, shared)
    for text, patterns in position_patterns(commands).items():
        values.setdefault(text, []).extend(patterns)
    return HEAD % ("\n".join(options), "\n".join(arm(patterns, text) for text, patterns in values.items())) + TAIL
