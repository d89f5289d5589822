"""What stands round a place of a C text: its tokens, brackets, statements and declarations, as far as a refusal is
explained by them."""
from __future__ import annotations

from typing import NamedTuple

from driver.c_tokens import tokens

OPEN, CLOSED = "([{", ")]}"
TYPE_WORDS = frozenset(
    "char short int long signed unsigned void const static pthread_t pthread_mutex_t pthread_barrier_t".split()
)
OTHER_TYPES = frozenset("float double struct union enum volatile _Bool".split())
OPERATORS = frozenset(
    "= += -= *= /= %= &= |= ^= <<= >>= + - * / % & | ^ << >> < > <= >= == != && || ! ~ ? : ( [ ,".split()
)
CONTROL_WORDS = frozenset("if else while do for return break continue switch case default goto".split())
LABELS = frozenset("case default".split())
ASSIGNMENTS = frozenset("= += -= *= /= %= &= |= ^= <<= >>=".split())


class Answer(NamedTuple):
    """What is said of a refusal: where, what stands there, and what to write. `behind` is the end of the token at the
    place; `lead` is what is said first."""

    offset: int
    what: str
    write: str
    behind: bool = False
    lead: str = "not taken: "


class View:
    """A text and the place that is refused. `at` is the number of the token there, or of how many there are where the
    text ends."""

    def __init__(self, text: str, offset: int) -> None:
        self.text, self.offset = text, offset
        self.tokens = [it for it in tokens(text) if it.kind != "directive"]
        self.at = next((k for k, it in enumerate(self.tokens) if it.end > offset), len(self.tokens))

    def word(self, k: int) -> str:
        return self.tokens[k].text if 0 <= k < len(self.tokens) else ""

    def kind(self, k: int) -> str:
        return self.tokens[k].kind if 0 <= k < len(self.tokens) else ""

    def place(self, k: int) -> int:
        return self.tokens[k].offset if 0 <= k < len(self.tokens) else self.offset

    def is_name(self, k: int) -> bool:
        return self.kind(k) == "name" and self.word(k) not in TYPE_WORDS | OTHER_TYPES | CONTROL_WORDS

    def is_type(self, k: int) -> bool:
        return self.word(k) in TYPE_WORDS | OTHER_TYPES

    def ends_operand(self, k: int) -> bool:
        return self.kind(k) in ("number", "char", "string") or self.is_name(k) or self.word(k) in (")", "]", "++", "--")

    def begins_line(self, k: int) -> bool:
        """Whether a line ends between the token and the one before it."""
        return 0 < k < len(self.tokens) and "\n" in self.text[self.tokens[k - 1].end : self.tokens[k].offset]

    def opened(self, k: int) -> list[int]:
        """The brackets that are open before the token, the outermost first."""
        found: list[int] = []
        for i in range(min(k, len(self.tokens))):
            if self.word(i) in OPEN and self.kind(i) == "mark":
                found.append(i)
            elif self.word(i) in CLOSED and self.kind(i) == "mark" and found:
                found.pop()
        return found

    def closing(self, k: int) -> int:
        """The bracket that closes the one at the token, or how many tokens there are."""
        depth = 0
        for i in range(k, len(self.tokens)):
            if self.kind(i) == "mark":
                depth += (self.word(i) in OPEN) - (self.word(i) in CLOSED)
                if depth == 0:
                    return i
        return len(self.tokens)

    def start(self, k: int) -> int:
        """The first token of the statement or declaration of the token, or of the label that it belongs to."""
        first = k
        while first > 0 and self.word(first - 1) not in (";", "{", "}"):
            first -= 1
        while self.word(first) in LABELS and self.colon(first) < k:
            first = self.colon(first) + 1
        return first

    def colon(self, k: int) -> int:
        """The `:` of a `case` or `default`, or how many tokens there are."""
        choices = 0
        for i in range(k + 1, len(self.tokens)):
            if self.word(i) in (";", "{", "}"):
                break
            if self.word(i) == ":" and not choices:
                return i
            choices += {"?": 1, ":": -1}.get(self.word(i), 0)
        return len(self.tokens)

    def stop(self, k: int) -> int:
        """The `;`, `{` or `}` behind the token, or how many tokens there are."""
        while k < len(self.tokens) and self.word(k) not in (";", "{", "}"):
            k += 1
        return k

    def is_inside(self, k: int) -> bool:
        """Whether the token stands in a block, and not in the braces of an initialiser at file scope."""
        return next((self.word(i - 1) != "=" for i in self.opened(k) if self.word(i) == "{"), False)

    def heads(self, k: int) -> str:
        """The word whose head in parentheses ends before the token: `if`, `while`, `for` or `switch`, or nothing."""
        if self.word(k - 1) != ")":
            return ""
        opened = next((i for i in range(k) if self.word(i) == "(" and self.closing(i) == k - 1), 0)
        return self.word(opened - 1) if self.word(opened - 1) in ("if", "while", "for", "switch") else ""

    def is_switch(self, k: int) -> bool:
        """Whether the `{` is that of a `switch`."""
        return self.word(k) == "{" and self.heads(k) == "switch"

    def switch(self, k: int) -> int | None:
        """The innermost `{` of a `switch` round the token, or none."""
        return next((i for i in reversed(self.opened(k)) if self.is_switch(i)), None)

    def function(self, k: int) -> str:
        """The name of the function in whose body the token stands, or nothing."""
        outer = [i for i in self.opened(k) if self.word(i) == "{"]
        if not outer or self.word(outer[0] - 1) != ")":
            return ""
        return next(
            (self.word(i - 1) for i in range(outer[0]) if self.word(i) == "(" and self.closing(i) == outer[0] - 1), ""
        )

    def call(self, k: int) -> tuple[str, int]:
        """The name before the innermost parenthesis round the token, and the number of the argument that it stands in,
        from 0."""
        around = [i for i in self.opened(k) if self.word(i) == "("]
        if not around:
            return "", 0
        commas = [i for i in range(around[-1] + 1, k) if self.word(i) == "," and self.opened(i) == self.opened(k)]
        return self.word(around[-1] - 1), len(commas)

    def declaration(self, name: str, before: int | None = None) -> int | None:
        """Where a name is declared."""
        for k in range(len(self.tokens) if before is None else before):
            if self.word(k) == name and self.kind(k) == "name" and self.declares(k):
                return k
        return None

    def declares(self, k: int) -> bool:
        """Whether the name is declared there: behind words of a type, or behind a comma of such a declaration."""
        ahead = k - 1 - (self.word(k - 1) == "*")
        is_next = self.word(ahead) == "," and self.is_type(self.start(k)) and self.word(k + 1) != "("
        return self.is_type(ahead) or is_next

    def line(self, k: int) -> int:
        return self.text.count("\n", 0, self.place(k)) + 1


def here(view: View, what: str, write: str) -> Answer:
    """What is not taken at the place itself."""
    return Answer(view.place(view.at), what, write)


def wrong(view: View, what: str, write: str) -> Answer:
    """What is wrong at the place in any C."""
    return Answer(view.place(view.at), what, write, lead="")
