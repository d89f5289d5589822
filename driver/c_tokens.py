"""The tokens of a C text with their places, as far as a reader of refusals needs them; what is no token is a mark of
one character."""
from __future__ import annotations

import re
from typing import Iterator, NamedTuple

SCANNER = re.compile(
    r"""
    (?P<blank>     [ \t\r\n\f\v]+ | //[^\n]* | /\*.*?\*/ | \\\r?\n )
  | (?P<directive> (?m:^)[ \t]*\#(?:[^\n\\]|\\.)* )
  | (?P<name>      [A-Za-z_]\w* )
  | (?P<number>    \.?\d(?:[eEpP][+-]|[\w.])* )
  | (?P<string>    "(?:[^"\\\n]|\\.)*"? )
  | (?P<char>      '(?:[^'\\\n]|\\.)*'? )
  | (?P<mark>      \.\.\.|<<=|>>=|->|\+\+|--|<<|>>|<=|>=|==|!=|&&|\|\||[-+*/%&|^]=|. )
    """,
    re.VERBOSE | re.DOTALL | re.ASCII,
)


class Token(NamedTuple):
    """A token: name, number, string, char, mark or directive, and the offset of its first byte."""

    kind: str
    text: str
    offset: int

    @property
    def end(self) -> int:
        return self.offset + len(self.text)


def tokens(text: str) -> Iterator[Token]:
    """The tokens of a text, of which each character is a byte."""
    for found in SCANNER.finditer(text):
        kind = found.lastgroup or "mark"
        if kind == "directive":
            blanks = len(found[0]) - len(found[0].lstrip(" \t"))
            yield Token(kind, found[0][blanks:], found.start() + blanks)
        elif kind != "blank":
            yield Token(kind, found[0], found.start())
