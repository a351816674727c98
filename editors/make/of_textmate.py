"""The syntax of VS Code, and of all that read TextMate's. Its own themes give each of these scopes a colour."""

import json


def either(names):
    return "(" + "|".join(names) + ")"


def syntax(names):
    rules = [
        ("comment.line.semicolon.mta", ";.*$"),
        ("entity.name.function.label.mta", r"^\s*[A-Za-z_][A-Za-z0-9_]*:"),
        ("keyword.control.directive.mta", rf"\.{either(names.directives)}\b"),
        ("constant.language.condition.mta", rf"(?<={'|'.join(names.asking)})\s+{either(names.conditions)}\b"),
        ("support.function.memory.mta", rf"\b({'|'.join(names.memory)})(\.[{''.join(names.access)}])?\b"),
        ("support.function.memory.mta", rf"\b{either(names.plain_memory)}\b"),
        ("storage.type.arithmetic.mta", rf"\b{either(names.arithmetic)}(\.T)?\b"),
        ("keyword.control.mta", rf"\b{either(names.control)}\b"),
        ("storage.type.wide.mta", rf"\b{either(names.wide)}\b"),
        ("variable.language.register.mta", r"\b(r([0-9]|[12][0-9]|3[01])|t[0-7])\b"),
        ("constant.numeric.mta", r"-?\b(0x[0-9A-Fa-f]+|[0-9]+)\b"),
        ("storage.modifier.lookahead.mta", r"@[0-7]\b"),
    ]
    patterns = [{"name": name, "match": match} for name, match in rules]
    comment = "made by editors/make of the assembler's table of names"
    made = {"name": "Tera MTA source (mta_sim)", "comment": comment, "scopeName": "source.mta", "patterns": patterns}
    return json.dumps(made, indent=2) + "\n"
