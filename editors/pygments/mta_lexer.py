"""Source texts of mta_sim for Pygments: pygmentize -x -l mta_lexer.py:MtaLexer FILE. Made by editors/make of the
assembler's table of names."""

from pygments.lexer import RegexLexer, bygroups
from pygments.token import Comment, Keyword, Name, Number, Operator, Punctuation, Text


class MtaLexer(RegexLexer):
    name, aliases, filenames, mimetypes = "Tera MTA", ["mta"], ["*.mta"], ["text/x-mta"]
    tokens = {"root": [
        (r";.*", Comment.Single),
        (r"^([ \t]*)([A-Za-z_]\w*)(:)", bygroups(Text, Name.Label, Punctuation)),
        (r"\.(profile|slim|chain|retry|trap|entry|word|data|fill)\b", Keyword.Namespace),
        (r"\b(SKIP|JUMP)(\s+)(ALWAYS|EQ|NE|LT|GE|LE|GT|LTU|GEU|LEU|GTU|NEG|POS|OV|NOV)\b", bygroups(Keyword, Text, Name.Constant)),
        (r"\b(LOAD|STORE|FADD)(\.[NFS])?\b|\b(TAGGET|TAGSET|PURGE)\b", Keyword.Type),
        (r"\b(ADD|SUB|MUL|AND|OR|XOR|ANDN|SHL|SHR|SAR|TALLY|LTS|LTU|PTR)(\.T)?\b", Keyword),
        (r"\b(NOP|JUMP|SKIP|CALL|XCHG|TSET|TGET|XGET|RESERVE|CREATE|QUIT|QUITP|MASK)\b", Keyword),
        (r"\b(LIT|LITH|TLIT)\b", Keyword.Declaration),
        (r"\br([0-9]|[12][0-9]|3[01])\b|\bt[0-7]\b", Name.Variable),
        (r"-?\b0x[0-9A-Fa-f]+\b", Number.Hex),
        (r"-?\b[0-9]+\b", Number.Integer),
        (r"@[0-7]\b", Name.Decorator),
        (r"\|", Operator),
        (r",", Punctuation),
        (r"[A-Za-z_]\w*", Name),
        (r"\s+", Text),
        (r".", Text)]}
