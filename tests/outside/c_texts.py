"""An independent reading of C texts by the words of docs/USING.md and C99: their tokens, their trees, and the first
byte at which a text is none (E1, E2, E3, and E12 of tokens, of a name's length and of nesting)."""
from __future__ import annotations

import re
import sys
from dataclasses import dataclass
from typing import Any, Callable, NoReturn, TypeVar, Union

sys.setrecursionlimit(200_000)
T = TypeVar("T")
WORDS = {
    2: "no token",
    3: "syntax",
    4: "unknown name",
    5: "declared twice",
    6: "wrong kind",
    7: "argument count",
    8: "recursion",
    9: "thread rule",
    10: "out of place",
    11: "constant out of range",
    13: "format",
}
MOST_BYTES, MOST_TOKENS, MOST_NAME, MOST_NESTING = 65_536, 16_384, 63, 64
MOST_DIMENSIONS = 3


class Refused(Exception):
    """The line of a refusal, without its head."""


def broken(rule: int, at: int) -> Refused:
    return Refused(f"E{rule} at byte {at}: {WORDS[rule]}")


def passed(name: str, count: int, most: int, at: int | None = None) -> Refused:
    return Refused(f"E12{'' if at is None else f' at byte {at}'}: {name} {count}, at most {most}")


# ---- types: a width and whether there is a sign


@dataclass(frozen=True)
class Integer:
    width: int
    signed: bool

    def wrap(self, number: int) -> int:
        """The number modulo the width (6.3.1.3)."""
        low = number & ((1 << self.width) - 1)
        return low - (1 << self.width) if self.signed and low >> (self.width - 1) else low

    def holds(self, number: int) -> bool:
        return self.wrap(number) == number

    def promoted(self) -> Integer:
        return INT if self.width < 32 else self


INT, UNSIGNED, LONG, UNSIGNED_LONG = Integer(32, True), Integer(32, False), Integer(64, True), Integer(64, False)


# ---- tokens

RESERVED = set(
    "auto break case char const continue default do double else enum extern float for goto if inline int long register "
    "restrict return short signed sizeof static struct switch typedef union unsigned void volatile while _Bool "
    "_Complex _Imaginary NULL PTHREAD_MUTEX_INITIALIZER pthread_t pthread_mutex_t pthread_barrier_t".split()
)
TYPE_WORDS = set(
    "static const void char short int long signed unsigned pthread_t pthread_mutex_t pthread_barrier_t".split()
)
# the longest first
MARKS = "<<= >>= += -= *= /= %= &= |= ^= << >> <= >= == != && || ++ --".split() + list("(){}[];,+-*/%&|^~!<>=?:")
ESCAPES = {"n": 10, "t": 9, "r": 13, "0": 0, "\\": 92, "'": 39, '"': 34}
SPLICE = re.compile(r"\\\r?\n")
NUMBER = re.compile(r"(0[xX](?P<hex>[0-9a-fA-F]+)|0(?P<octal>[0-7]*)|(?P<decimal>[1-9][0-9]*))(?P<suffix>[uUlL]*)")
SUFFIX = re.compile(r"[uU]?|[uU]?(l|L|ll|LL)|(l|L|ll|LL)[uU]")


@dataclass
class Token:
    """Its kind is `name`, `constant`, `string`, `end`, or the mark or reserved word that it is. A constant that no type
    holds has a value of None."""

    kind: str
    at: int
    text: str = ""
    value: tuple[int, Integer] | None = None


def typed_constant(word: str) -> tuple[bool, tuple[int, Integer] | None]:
    """Whether the word spells an integer constant, and its value with the first type that holds it (6.4.4.1)."""
    found = NUMBER.fullmatch(word)
    if not found or not SUFFIX.fullmatch(found["suffix"]):
        return False, None
    if found["hex"] is not None:
        number, decimal = int(found["hex"], 16), False
    elif found["octal"] is not None:
        number, decimal = int(found["octal"] or "0", 8), False
    else:
        number, decimal = int(found["decimal"]), True
    suffix = found["suffix"].lower()
    kinds = [INT, UNSIGNED, LONG, UNSIGNED_LONG]
    if "l" in suffix:
        kinds = [kind for kind in kinds if kind.width == 64]
    if "u" in suffix:
        kinds = [kind for kind in kinds if not kind.signed]
    elif decimal:
        kinds = [kind for kind in kinds if kind.signed]
    return True, next(((number, kind) for kind in kinds if kind.holds(number)), None)


class Lexer:
    """The text as characters of one byte each."""

    def __init__(self, text: str) -> None:
        self.text, self.at, self.tokens = text, 0, list[Token]()
        self.defined: dict[str, tuple[int, Integer] | None] = {}
        self.begins_line = True
        # of a directive: the place of its `#`, what comes next in it, and the name that it defines
        self.hash, self.awaits, self.name = 0, "", ""

    def lexed(self) -> list[Token]:
        if len(self.text) > MOST_BYTES:
            raise Refused("E1: longer than 65536 bytes")
        while self.at < len(self.text):
            char = self.text[self.at]
            if char in " \t\r":
                self.at += 1
            elif self.text.startswith(("//", "/*"), self.at):
                self.comment()
            elif char == "\n" and self.awaits in ("", "end"):
                self.at, self.begins_line, self.awaits = self.at + 1, True, ""
            elif self.awaits:
                self.directive()
            elif char == "#" and self.begins_line:
                self.hash, self.awaits = self.at, "word"
                self.at += 1
            else:
                self.begins_line = False
                self.token()
        if self.awaits not in ("", "end"):
            raise broken(2, self.hash)
        self.tokens.append(Token("end", len(self.text)))
        return self.tokens

    def comment(self) -> None:
        """Past a comment. A line that goes on behind a backslash is refused in it too."""
        begin, mark = self.at, self.text[self.at + 1]
        end = self.text.find("\n" if mark == "/" else "*/", begin + 2)
        splice = SPLICE.search(self.text, begin + 2)
        if mark == "/" and end < 0:
            end = len(self.text)
        if end < 0 or (splice and splice.start() < end):
            raise broken(2, begin)
        self.at = end if mark == "/" else end + 2

    def run(self, pattern: str) -> str:
        found = re.compile(pattern, re.ASCII).match(self.text, self.at)
        return found[0] if found else ""

    def directive(self) -> None:
        """One more part of a directive."""
        word = self.run(r"[A-Za-z_]\w*" if self.awaits != "value" else r"[0-9][\w.]*")
        if self.awaits == "word" and word in ("include", "define"):
            self.awaits = "header" if word == "include" else "name"
        elif self.awaits == "header":
            word = self.run(r"<[\t -=?-~]+>|\"[\t -!#-~]+\"")
            self.awaits = "end" if word else ""
        elif self.awaits == "name" and word and word not in RESERVED and word not in self.defined:
            self.name, self.awaits = word, "value"
        elif self.awaits == "value" and typed_constant(word)[0]:
            self.defined[self.name], self.awaits = typed_constant(word)[1], "end"
        else:
            self.awaits = ""
        if not self.awaits:
            raise broken(2, self.hash)
        self.at += len(word)

    def token(self) -> None:
        begin, char = self.at, self.text[self.at]
        if char.isascii() and (char.isalpha() or char == "_"):
            token = self.word(self.run(r"[A-Za-z_]\w*"))
        elif char in "0123456789":
            word = self.run(r"[0-9][\w.]*")
            is_one, value = typed_constant(word)
            token = Token("constant" if is_one else "", begin, word, value)
        elif char == "'":
            word = self.run(r"'(?:[ -&(-[\]-~]|\\[ntr0\\'\"])'")
            value = (ord(word[1]) if len(word) == 3 else ESCAPES[word[2]], INT) if word else None
            token = Token("constant" if word else "", begin, word, value)
        elif char == '"':
            word = self.run(r'"(?:[ !#-[\]-~]|\\[ -~])*"')
            token = Token("string" if word else "", begin, word)
        else:
            word = next((mark for mark in MARKS if self.text.startswith(mark, begin)), "")
            token = Token(word, begin, word)
        if not token.kind:
            raise broken(2, begin)
        if len(self.tokens) == MOST_TOKENS:
            raise passed("tokens", MOST_TOKENS + 1, MOST_TOKENS, begin)
        if char.isalpha() or char == "_":
            if len(token.text) > MOST_NAME:
                raise passed("name length", len(token.text), MOST_NAME, begin)
        self.tokens.append(token)
        self.at += len(token.text)

    def word(self, word: str) -> Token:
        if word in RESERVED:
            return Token(word, self.at, word)
        if word in self.defined:
            return Token("constant", self.at, word, self.defined[word])
        return Token("name", self.at, word)


# ---- trees. A node's `at` is its first byte, parentheses round it counted.


@dataclass
class Constant:
    at: int
    value: tuple[int, Integer] | None
    constant_at: int


@dataclass
class Place:
    """A name with the indices behind it; what it stands for is found later."""

    at: int
    name: str
    name_at: int
    indices: list[Expression]
    meaning: Any = None


@dataclass
class Call:
    at: int
    name: str
    name_at: int
    arguments: list[Argument]
    meaning: Any = None


@dataclass
class Unary:
    at: int
    operator: str
    operand: Expression
    type: Integer = INT


@dataclass
class Cast:
    at: int
    words: list[str]
    words_at: int
    operand: Expression
    type: Integer = INT


@dataclass
class Binary:
    at: int
    operator: str
    left: Expression
    right: Expression
    type: Integer = INT


@dataclass
class Choice:
    at: int
    condition: Expression
    first: Expression
    second: Expression
    type: Integer = INT


@dataclass
class Text:
    at: int
    text: str


@dataclass
class Address:
    at: int
    place: Place


@dataclass
class Pointer:
    """NULL, or `(void *)` before an operand."""

    at: int
    operand: Expression | None


Expression = Union[Constant, Place, Call, Unary, Cast, Binary, Choice]
Argument = Union[Expression, Text, Address, Pointer]


@dataclass
class Declarator:
    name: str
    at: int
    lengths: list[Expression]
    initial: Initial | None
    variable: Any = None


@dataclass
class Braces:
    at: int
    items: list[Initial]


@dataclass
class MutexInitial:
    at: int


Initial = Union[Expression, Braces, MutexInitial]


@dataclass
class Declaration:
    words: list[str]
    at: int
    is_pointer: bool
    declarators: list[Declarator]


@dataclass
class Block:
    items: list[Union[Declaration, Statement]]
    close: int


@dataclass
class Empty:
    pass


@dataclass
class Assign:
    at: int
    place: Place
    operator: str
    right: Expression


@dataclass
class Step:
    at: int
    place: Place
    operator: str


@dataclass
class CallStatement:
    at: int
    call: Call


@dataclass
class Jump:
    at: int
    word: str


@dataclass
class If:
    condition: Expression
    consequent: Statement
    alternative: Statement | None


@dataclass
class While:
    condition: Expression
    body: Statement


@dataclass
class DoWhile:
    body: Statement
    condition: Expression


@dataclass
class For:
    first: Declaration | Simple | None
    condition: Expression | None
    last: Simple | None
    body: Statement


@dataclass
class Label:
    """A case with its value, or default."""

    at: int
    value: Expression | None
    number: int | None = None


@dataclass
class Switch:
    at: int
    operand: Expression
    body: list[Union[Label, Statement]]
    type: Integer = INT


@dataclass
class Return:
    at: int
    value: Expression | Pointer | None


Simple = Union[Assign, Step, CallStatement]
Statement = Union[Block, Empty, Simple, Jump, If, While, DoWhile, For, Switch, Return]


@dataclass
class Parameter:
    words: list[str]
    at: int
    is_pointer: bool
    name: str | None
    name_at: int


@dataclass
class Function:
    words: list[str]
    at: int
    is_pointer: bool
    name: str
    name_at: int
    parameters: list[Parameter]
    body: Block | None


External = Union[Function, Declaration]

LEVELS = ["|| ", "&& ", "| ", "^ ", "& ", "== != ", "< > <= >= ", "<< >> ", "+ - ", "* / % "]
LEVEL = {mark: level for level, marks in enumerate(LEVELS) for mark in marks.split()}
ASSIGNMENTS = set("= *= /= %= += -= <<= >>= &= ^= |=".split())


class Parser:
    """By recursive descent, one token ahead but where a pointer may begin. Each token is looked at as it is taken, so
    the first one that no text goes on with is found, and the first one that is nested too deep."""

    def __init__(self, tokens: list[Token]) -> None:
        self.tokens, self.next, self.depth = tokens, 0, 0

    # ---- tokens

    def sees(self, *kinds: str) -> bool:
        return self.tokens[self.next].kind in kinds

    def fault(self) -> NoReturn:
        raise broken(3, self.tokens[self.next].at)

    def take(self, *kinds: str) -> Token:
        if not self.sees(*kinds):
            self.fault()
        token = self.tokens[self.next]
        if self.depth > MOST_NESTING:
            raise passed("nesting", self.depth, MOST_NESTING, token.at)
        self.next += 1
        return token

    def nested(self, part: Callable[[], T]) -> T:
        self.depth += 1
        found = part()
        self.depth -= 1
        return found

    def within(self, opens: str, part: Callable[[], T], closes: str) -> T:
        """A bracket with what it encloses."""

        def bracket() -> T:
            self.take(opens)
            found = part()
            self.take(closes)
            return found

        return self.nested(bracket)

    def listed(self, item: Callable[[], T]) -> list[T]:
        found = [item()]
        while self.sees(","):
            self.take(",")
            found.append(item())
        return found

    def words(self) -> tuple[list[str], int]:
        token = self.take(*TYPE_WORDS)
        words = [token.kind]
        while self.sees(*TYPE_WORDS):
            words.append(self.take(*TYPE_WORDS).kind)
        return words, token.at

    # ---- expressions

    def expression(self) -> Expression:
        condition = self.binary(0)
        if not self.sees("?"):
            return condition
        self.take("?")
        first = self.expression()
        self.take(":")
        second = self.nested(self.expression)
        return Choice(condition.at, condition, first, second)

    def binary(self, level: int) -> Expression:
        if level == len(LEVELS):
            return self.cast()
        left = self.binary(level + 1)
        while LEVEL.get(self.tokens[self.next].kind) == level:
            operator = self.take(self.tokens[self.next].kind).kind
            left = Binary(left.at, operator, left, self.binary(level + 1))
        return left

    def begins_cast(self) -> bool:
        return self.sees("(") and self.tokens[self.next + 1].kind in TYPE_WORDS

    def begins_pointer(self) -> bool:
        return [token.kind for token in self.tokens[self.next : self.next + 3]] == ["(", "void", "*"]

    def cast(self) -> Expression:
        at = self.tokens[self.next].at
        if self.begins_cast():
            words, words_at = self.within("(", self.words, ")")
            return Cast(at, words, words_at, self.nested(self.cast))
        if self.sees("-", "+", "~", "!"):
            operator = self.take("-", "+", "~", "!").kind
            return Unary(at, operator, self.nested(self.cast))
        if self.sees("constant"):
            return Constant(at, self.take("constant").value, at)
        if self.sees("("):
            inner = self.within("(", self.expression, ")")
            inner.at = at
            return inner
        name = self.take("name").text
        if self.sees("("):
            return Call(at, name, at, self.arguments())
        return Place(at, name, at, self.indices())

    def indices(self) -> list[Expression]:
        found: list[Expression] = []
        while len(found) < MOST_DIMENSIONS and self.sees("["):
            found.append(self.within("[", self.expression, "]"))
        return found

    def place(self) -> Place:
        token = self.take("name")
        return Place(token.at, token.text, token.at, self.indices())

    def arguments(self) -> list[Argument]:
        return self.within("(", lambda: [] if self.sees(")") else self.listed(self.argument), ")")

    def argument(self) -> Argument:
        at = self.tokens[self.next].at
        if self.sees("string"):
            return Text(at, self.take("string").text[1:-1])
        if self.sees("&"):
            self.take("&")
            return Address(at, self.nested(self.place))
        return self.pointer() if self.sees("NULL") or self.begins_pointer() else self.expression()

    def pointer(self) -> Pointer:
        at = self.tokens[self.next].at
        if self.sees("NULL"):
            self.take("NULL")
            return Pointer(at, None)
        self.within("(", lambda: (self.take("void"), self.take("*")), ")")
        return Pointer(at, self.nested(self.cast))

    # ---- statements

    def simple(self) -> Simple:
        at = self.tokens[self.next].at
        if self.sees("++", "--"):
            operator = self.take("++", "--").kind
            return Step(at, self.place(), operator)
        name = self.take("name").text
        if self.sees("("):
            return CallStatement(at, Call(at, name, at, self.arguments()))
        place = Place(at, name, at, self.indices())
        if self.sees("++", "--"):
            return Step(at, place, self.take("++", "--").kind)
        operator = self.take(*ASSIGNMENTS).kind
        return Assign(at, place, operator, self.expression())

    def condition(self) -> Expression:
        return self.within("(", self.expression, ")")

    def statement(self) -> Statement:
        kind, at = self.tokens[self.next].kind, self.tokens[self.next].at
        if kind == "{":
            return self.block()
        compound: dict[str, Callable[[], Statement]] = {
            "if": self.if_statement,
            "while": self.while_statement,
            "do": self.do_statement,
            "for": self.for_statement,
            "switch": self.switch_statement,
        }
        if kind in compound:
            return compound[kind]()
        found: Statement
        if kind == ";":
            found = Empty()
        elif kind in ("break", "continue"):
            self.take(kind)
            found = Jump(at, kind)
        elif kind == "return":
            self.take(kind)
            if self.sees(";"):
                found = Return(at, None)
            else:
                is_pointer = self.sees("NULL") or self.begins_pointer()
                found = Return(at, self.pointer() if is_pointer else self.expression())
        else:
            found = self.simple()
        self.take(";")
        return found

    def if_statement(self) -> If:
        self.take("if")
        condition = self.condition()
        consequent = self.nested(self.statement)
        if not self.sees("else"):
            return If(condition, consequent, None)
        self.take("else")
        return If(condition, consequent, self.nested(self.statement))

    def while_statement(self) -> While:
        self.take("while")
        condition = self.condition()
        return While(condition, self.nested(self.statement))

    def do_statement(self) -> DoWhile:
        self.take("do")
        body = self.nested(self.statement)
        self.take("while")
        condition = self.condition()
        self.take(";")
        return DoWhile(body, condition)

    def for_statement(self) -> For:
        self.take("for")

        def head() -> tuple[Declaration | Simple | None, Expression | None, Simple | None]:
            first: Declaration | Simple | None = None
            if self.sees(*TYPE_WORDS):
                first = self.declaration()
            else:
                first = None if self.sees(";") else self.simple()
                self.take(";")
            condition = None if self.sees(";") else self.expression()
            self.take(";")
            return first, condition, None if self.sees(")") else self.simple()

        first, condition, last = self.within("(", head, ")")
        return For(first, condition, last, self.nested(self.statement))

    def switch_statement(self) -> Switch:
        at = self.take("switch").at
        operand = self.condition()
        body: list[Label | Statement] = []

        def groups() -> None:
            while not self.sees("}"):
                if self.sees("case", "default") or not body:
                    label = self.take("case", "default")
                    body.append(Label(label.at, self.expression() if label.kind == "case" else None))
                    self.take(":")
                else:
                    body.append(self.statement())

        self.nested(lambda: self.within("{", groups, "}"))
        return Switch(at, operand, body)

    def block(self) -> Block:
        close = 0

        def items() -> list[Declaration | Statement]:
            nonlocal close
            found: list[Declaration | Statement] = []
            while not self.sees("}"):
                found.append(self.declaration() if self.sees(*TYPE_WORDS) else self.statement())
            close = self.tokens[self.next].at
            return found

        return Block(self.within("{", items, "}"), close)

    # ---- declarations

    def declaration(self) -> Declaration:
        words, at = self.words()

        def declarator() -> Declarator:
            name = self.take("name")
            lengths = self.indices()
            if not self.sees("="):
                return Declarator(name.text, name.at, lengths, None)
            self.take("=")
            return Declarator(name.text, name.at, lengths, self.expression())

        found = self.listed(declarator)
        self.take(";")
        return Declaration(words, at, False, found)

    def initial(self) -> Initial:
        """A value, or a list in braces."""
        if not self.sees("{"):
            return self.expression()
        at = self.tokens[self.next].at

        def items() -> list[Initial]:
            found = [self.initial()]
            while self.sees(","):
                self.take(",")
                if self.sees("}"):
                    break
                found.append(self.initial())
            return found

        return Braces(at, self.within("{", items, "}"))

    def tail(self, name: Token) -> Declarator:
        """What stands behind the name of an object at file scope."""
        lengths = self.indices()
        if not self.sees("="):
            return Declarator(name.text, name.at, lengths, None)
        self.take("=")
        if self.sees("PTHREAD_MUTEX_INITIALIZER"):
            at = self.take("PTHREAD_MUTEX_INITIALIZER").at
            return Declarator(name.text, name.at, lengths, MutexInitial(at))
        return Declarator(name.text, name.at, lengths, self.initial())

    def parameter(self) -> Parameter:
        words, at = self.words()
        is_pointer = self.sees("*")
        if is_pointer:
            self.take("*")
        if not self.sees("name"):
            return Parameter(words, at, is_pointer, None, at)
        name = self.take("name")
        return Parameter(words, at, is_pointer, name.text, name.at)

    def external(self) -> External:
        words, at = self.words()
        is_pointer = self.sees("*")
        if is_pointer:
            self.take("*")
        name = self.take("name")
        if not self.sees("("):
            found = [self.tail(name)]
            while self.sees(","):
                self.take(",")
                found.append(self.tail(self.take("name")))
            self.take(";")
            return Declaration(words, at, is_pointer, found)
        parameters = self.within("(", lambda: [] if self.sees(")") else self.listed(self.parameter), ")")
        body = self.block() if self.sees("{") else None
        if body is None:
            self.take(";")
        return Function(words, at, is_pointer, name.text, name.at, parameters, body)

    def unit(self) -> list[External]:
        found = [self.external()]
        while not self.sees("end"):
            found.append(self.external())
        self.take("end")
        return found


def read(text: str) -> list[External]:
    """The tree of a text whose characters are its bytes; Refused where it has none."""
    return Parser(Lexer(text).lexed()).unit()
