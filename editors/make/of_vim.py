"""The syntax of Vim and Neovim."""

LINKS = {"Condition": "Constant", "Register": "Identifier", "Number": "Number", "Lookahead": "Special",
         "Directive": "PreProc", "Wide": "Statement", "Memory": "Type", "Arithmetic": "Statement", "Control": "Keyword",
         "Label": "Label", "Comment": "Comment"}


def either(names):
    return r"\(" + r"\|".join(names) + r"\)"


def syntax(names):
    # (of two items that begin at one place the last one counts: a label may be called as an operation or a register)
    rules = [
        ("Wide", rf"\<{either(names.wide)}\>"),
        ("Memory", rf"\<{either(names.memory)}\(\.[{''.join(names.access)}]\)\?\>"),
        ("Memory", rf"\<{either(names.plain_memory)}\>"),
        ("Arithmetic", rf"\<{either(names.arithmetic)}\(\.T\)\?\>"),
        ("Control", rf"\<{either(names.control)}\>"),
        ("Condition", rf"{either(names.asking)}\@<=\s\+{either(names.conditions)}\>"),
        ("Register", r"\<\(r\([0-9]\|[12][0-9]\|3[01]\)\|t[0-7]\)\>"),
        ("Number", r"-\?\<\([0-9]\+\|0x[0-9A-Fa-f]\+\)\>"),
        ("Lookahead", r"@[0-7]\>"),
        ("Directive", rf"\.{either(names.directives)}\>"),
        ("Label", r"^\s*[A-Za-z_][A-Za-z0-9_]*:"),
        ("Comment", ";.*$"),
    ]
    lines = ['" Vim syntax of the source texts of mta_sim, made by editors/make of the assembler\'s table of names.',
             "if exists('b:current_syntax')", "  finish", "endif", "syntax case match"]
    lines += [f'syntax match mta{kind} "{pattern}"' for kind, pattern in rules]
    lines += [f"highlight default link mta{kind} {group}" for kind, group in LINKS.items()]
    return "\n".join([*lines, "let b:current_syntax = 'mta'", ""])
