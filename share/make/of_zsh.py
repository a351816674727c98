"""The completion of mta_lab for zsh."""

import re
import textwrap

HEAD = """\
#compdef mta_lab
# completion of mta_lab for zsh. Made by share/make of the table of commands in crates/lab_command_line

_mta_lab() {
  local -a commands
  local curcontext=$curcontext state line
  typeset -A opt_args
  commands=(
%s
  )
  _arguments -C \\
    %s \\
    '--help[prints help]' '--version[prints the version]' \\
    '1:command:->command' '*::argument:->argument'
  case $state in
    command) _describe command commands ;;
    argument)
      case ${words[1]} in
%s
      esac
      ;;
  esac
}
_mta_lab "$@"
"""


def quoted(text):
    return "'" + text.replace("'", "'\\''") + "'"


def escaped(text):
    """A text where brackets and colons have a meaning."""
    return re.sub(r"([][:\\])", r"\\\1", text)


def action(value):
    """What completes a value."""
    if value.kind == "files":
        names = [ending.removeprefix(".") for ending in value.endings]
        return f'_files -g "*.{names[0] if len(names) == 1 else "(" + "|".join(names) + ")"}(-.)"'
    if value.kind == "folders":
        return "_files -/"
    words = textwrap.wrap(" ".join(value.words), 100, break_long_words=False, break_on_hyphens=False)
    return "(" + "\n              ".join(words) + ")" if words else " "


def spec(argument, position):
    """What `_arguments` takes for an argument."""
    value = f":{escaped(argument.value_name)}:{action(argument.value)}" if argument.value else ""
    if argument.is_option:
        return quoted(f"--{argument.name}[{escaped(argument.about)}]{value}")
    if argument.form in ("Several", "AnyNumber"):
        return quoted(f"*{value}")
    return quoted(f"{position}{':' if argument.form in ('Optional', 'Name') else ''}{value}")


def arm(command, shared):
    """The arm of a command."""
    specs = [spec(argument, command.positions.index(argument) + 1 if not argument.is_option else None)
             for argument in [*command.arguments, shared]]
    lines = " \\\n".join(f"            {it}" for it in [*specs, "'--help[prints help]'"])
    return f"        {command.name})\n          _arguments \\\n{lines}\n          ;;"


def completion(commands, shared):
    described = "\n".join(f"    {quoted(command.name + ':' + command.about)}" for command in commands)
    return HEAD % (described, spec(shared, None), "\n".join(arm(command, shared) for command in commands))
