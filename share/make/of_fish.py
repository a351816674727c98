"""The completion of mta_lab for fish."""

HEAD = "# completion of mta_lab for fish. Made by share/make of the table of commands in crates/lab_command_line\n"


def quoted(text):
    return "'" + text.replace("\\", "\\\\").replace("'", "\\'") + "'"


def seen(commands):
    """The condition that one of these commands stands on the line."""
    return f"-n '__fish_seen_subcommand_from {' '.join(commands)}'"


def offered(value):
    """What completes a value: files whose names end so before others, folders, words, or nothing."""
    if value.kind == "files":
        return f"-k -a '({'; '.join(f'__fish_complete_suffix {ending}' for ending in value.endings)})'"
    if value.kind == "folders":
        return "-a '(__fish_complete_directories)'"
    return f"-a {quoted(' '.join(value.words))}" if value.words else ""


def option_line(option, condition):
    """The line of an option. Where files are offered any other name may be written too."""
    parts = ["complete -c mta_lab", condition, f"-l {option.name}"]
    if option.value is None:
        parts.append("-f")
    else:
        parts += ["-r" if option.value.kind == "files" else "-x", offered(option.value)]
    return " ".join(part for part in [*parts, f"-d {quoted(option.about)}"] if part)


def option_lines(commands):
    """A line for each option of another name, value or meaning, with all commands that have it."""
    found = {}
    for command in commands:
        for option in command.options:
            line = option_line(option, "%s")
            found.setdefault(line, []).append(command.name)
    return [line.replace("%s", seen(of), 1) for line, of in found.items()]


def position_lines(commands):
    """A line for what each command takes beside options."""
    found = {}
    for command in commands:
        offers = dict.fromkeys(offered(argument.value) for argument in command.positions)
        endings = dict.fromkeys(ending for it in command.positions for ending in it.value.endings)
        words = [offer for offer in offers if "__fish_complete_suffix" not in offer]
        if endings:
            suffixes = "; ".join(f"__fish_complete_suffix {ending}" for ending in endings)
            words.append(f"-k -a '({suffixes})'")
        for offer in words or [""]:
            found.setdefault(f"complete -c mta_lab %s -f {offer}".rstrip(), []).append(command.name)
    return [line.replace("%s", seen(of), 1) for line, of in found.items()]


def completion(commands, shared):
    names = [f"complete -c mta_lab -f -n __fish_use_subcommand -a {command.name} -d {quoted(command.about)}"
             for command in commands]
    everywhere = [option_line(shared, ""), "complete -c mta_lab -l help -f -d 'prints help'",
                  "complete -c mta_lab -n __fish_use_subcommand -l version -f -d 'prints the version'"]
    parts = [names, ["", "# what the commands take"], position_lines(commands), ["", "# options"],
             option_lines(commands), everywhere]
    return HEAD + "\n".join(line for part in parts for line in part) + "\n"
