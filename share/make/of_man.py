"""The options in the man page of mta_lab: the forms of the commands, and what each option says. The rest of the page is
written by hand."""

import re

BEGIN, END = '.\\" Made by share/make of the table of commands: the {}', '.\\" End of the {}'


def escaped(text):
    return text.replace("\\", "\\e").replace("-", "\\-")


def named(option):
    """An option with its value, by the fonts of the page."""
    value = f"\\ \\fI{escaped(option.value_name)}\\fP" if option.value else ""
    return f"\\fB\\-\\-{escaped(option.name)}\\fP{value}"


def shown(argument):
    """An argument as a form of a command has it."""
    if argument.is_option:
        return named(argument)
    if argument.value.is_fixed:
        return "\\fB" + "\\fP|\\fB".join(escaped(word) for word in argument.value.words) + "\\fP"
    dots = ".." if argument.form in ("Several", "AnyNumber", "Name") else ""
    return f"\\fI{escaped(argument.name)}\\fP{dots}"


def is_needed(argument):
    return argument.form in ("Needed", "Several") or argument.presence in ("Needed", "NeededWithout")


def exclude(one, other):
    return other.name in one.excluded or one.name in other.excluded


def alternatives(arguments):
    """The arguments, those that stand next to each other and do not go together in one list."""
    found = []
    for argument in arguments:
        if found and all(exclude(argument, other) for other in found[-1]):
            found[-1].append(argument)
        else:
            found.append([argument])
    return found


def form(command):
    """The lines of a command's form, a list of alternatives a line."""
    lines = [f".B mta_lab {command.name}"]
    for several in alternatives(command.arguments):
        text = " | ".join(shown(argument) for argument in several)
        lines.append(text if any(is_needed(argument) for argument in several) else f"[{text}]")
    return "\n".join(lines)


def forms(commands):
    return "\n.br\n".join(form(command) for command in commands) + "\n"


def listed(words):
    """Words in a sentence."""
    return words[0] if len(words) == 1 else f"{', '.join(words[:-1])} and {words[-1]}"


def meaning(option):
    """What an option says, with the words that it takes if that does not name them all, and what it goes only with."""
    words = option.value.words if option.value else []
    said = [escaped(option.about)]
    if not all(re.search(rf"\b{word}\b", option.about) for word in words):
        said.append(f"It is {', '.join(words[:-1])} or {words[-1]}")
    if option.presence == "With":
        said.append(f"It goes only with {named_of(option.others[0])}")
    end = "" if said[-1].endswith(".") else "."
    return ("\\&" if said[0][0] in ".'" else "") + ". ".join(said) + end


def named_of(name):
    """An argument by its name; those of options are in small letters."""
    return f"\\fI{name}\\fP" if name.isupper() else f"\\fB\\-\\-{escaped(name)}\\fP"


def options(commands, shared):
    """The options by their names, in the order of the table: of which commands each is, and what it says there."""
    found = {}
    for command in commands:
        for option in command.options:
            meanings = found.setdefault(named(option), {})
            meanings.setdefault(meaning(option), []).append(f"\\fB{command.name}\\fP")
    found[named(shared)] = {meaning(shared): ["all commands"]}
    lines = []
    for name, meanings in found.items():
        lines += [".TP", name]
        lines.append("\n.br\n".join(f"Of {listed(of)}:\n{said}" for said, of in meanings.items()))
    return "\n".join(lines) + "\n"


def page(old, commands, shared):
    """The page with these parts made anew."""
    for name, made in (("forms", forms(commands)), ("options", options(commands, shared))):
        begin, end = BEGIN.format(name), END.format(name)
        before, rest = old.split(begin + "\n")
        old = before + begin + "\n" + made + end + "\n" + rest.split(end + "\n")[1]
    return old
