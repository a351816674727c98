"""The lexer of Pygments, which LaTeX's minted and Sphinx use."""

LEXER = r'''"""Source texts of mta_sim for Pygments: pygmentize -x -l mta_lexer.py:MtaLexer FILE. Made by editors/make of the
assembler's table of names."""

from pygments.lexer import RegexLexer, bygroups
from pygments.token import Comment, Keyword, Name, Number, Operator, Punctuation, Text


class MtaLexer(RegexLexer):
    name, aliases, filenames, mimetypes = "Tera MTA", ["mta"], ["*.mta"], ["text/x-mta"]
    tokens = {"root": [
        (r";.*", Comment.Single),
        (r"^([ \t]*)([A-Za-z_]\w*)(:)", bygroups(Text, Name.Label, Punctuation)),
        (r"\.(%(directives)s)\b", Keyword.Namespace),
        (r"\b(%(asking)s)(\s+)(%(conditions)s)\b", bygroups(Keyword, Text, Name.Constant)),
        (r"\b(%(memory)s)(\.[%(access)s])?\b|\b(%(plain)s)\b", Keyword.Type),
        (r"\b(%(arithmetic)s)(\.T)?\b", Keyword),
        (r"\b(%(control)s)\b", Keyword),
        (r"\b(%(wide)s)\b", Keyword.Declaration),
        (r"\br([0-9]|[12][0-9]|3[01])\b|\bt[0-7]\b", Name.Variable),
        (r"-?\b0x[0-9A-Fa-f]+\b", Number.Hex),
        (r"-?\b[0-9]+\b", Number.Integer),
        (r"@[0-7]\b", Name.Decorator),
        (r"\|", Operator),
        (r",", Punctuation),
        (r"[A-Za-z_]\w*", Name),
        (r"\s+", Text),
        (r".", Text)]}
'''


def lexer(names):
    return LEXER % {"directives": "|".join(names.directives), "asking": "|".join(names.asking),
                    "conditions": "|".join(names.conditions), "memory": "|".join(names.memory),
                    "access": "".join(names.access), "plain": "|".join(names.plain_memory),
                    "arithmetic": "|".join(names.arithmetic), "control": "|".join(names.control),
                    "wide": "|".join(names.wide)}
