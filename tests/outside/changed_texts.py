"""C texts that are changed in places, token by token or by whole statements, so that many break a rule, or have a step
that is undefined."""
from __future__ import annotations

import random

from c_texts import Lexer, Token

# What may be put before a statement; NAME is a name of the text, MINE one of no text.
STATEMENTS = [
    "continue;",
    "break;",
    "return;",
    "return 1;",
    "return NULL;",
    "return NAME;",
    "NAME = 1;",
    "NAME = NAME;",
    "NAME[0] = 1;",
    "NAME[0][0] = NAME;",
    "NAME[NAME][1][0] += 3;",
    "NAME++;",
    "--NAME[2];",
    "NAME();",
    "NAME(1);",
    "NAME(NAME, 2);",
    "NAME = NAME() + NAME(1);",
    "NAME = NAME(NAME(2), 1) ? NAME : 3;",
    "NAME /= NAME - NAME;",
    "NAME = NAME << NAME;",
    "NAME = -NAME * 1000003;",
    "{int MINE; MINE = MINE + 1;}",
    "{int MINE; int MINE;}",
    "{int MINE = MINE ? 1 : 2;}",
    "{int MINE = NAME && (1 / NAME);}",
    "{int MINE = !(NAME || NAME) + NAME;}",
    "{int MINE[2][3]; MINE[0][1] = 2; MINE[1] = 2;}",
    "{int MINE[2][3]; MINE[1][NAME] = 2; NAME = MINE[1][0] + MINE[2][1 / NAME];}",
    "{int MINE[2][2][2]; MINE[0][1][1] = 4; NAME = MINE[0][1][1] + MINE[0][1][0];}",
    "{int MINE[2][0];}",
    "{int MINE[NAME];}",
    "{int MINE[1 + 1][2 && 1];}",
    "{int MINE[1][1][1][1];}",
    "{int MINE[2] = 1;}",
    "{static int MINE;}",
    "{pthread_mutex_t MINE;}",
    "{void MINE;}",
    "{int MINE = (void)NAME;}",
    "{long MINE = (static long)NAME;}",
    "switch (NAME) {}",
    "switch (NAME) {case 1: NAME = 2; case 2: NAME = 3; break; default: NAME = 4;}",
    "switch (NAME) {default: ; case 0: ; default: ;}",
    "switch (NAME) {case 1: ; case 3: ; case 2 - 1: ;}",
    "switch ((char)1) {case 4294967296: ; case 0: ;}",
    "switch (1ul) {case -1: ; case 18446744073709551615u: ;}",
    "switch (NAME) {case NAME: ;}",
    "switch (NAME) {case 1 ? 2 : 3: ;}",
    "switch (NAME) {case 1 && 1: ;}",
    "switch (NAME) {case 1 / 0: ;}",
    "switch (NAME) {case 99999999999999999999: ;}",
    "switch (NAME) {case 1: int MINE;}",
    "switch (NAME) {NAME = 1; case 1: ;}",
    "switch (NAME) case 1: ;",
    "switch (NAME) {case 1: continue; case 2: break;}",
    "switch (1 / NAME) {case 0: ;}",
    "switch (NAME(1)) {case 0: ; default: {break;}}",
    "case 1: ;",
    "default: ;",
    "while (NAME && NAME(1)) break;",
    "if (NAME ? NAME : 0) NAME = 1; else NAME = 2;",
    "if (!(NAME < 2 || (NAME && 3) == 1)) NAME = 7;",
    "do NAME = NAME ? 0 : 1; while (NAME(NAME));",
    "for (int MINE = NAME ? 2 : 1; MINE && NAME(MINE); MINE--) ;",
    'NAME = printf("a");',
    'NAME = 1 + printf("a", NAME);',
    "NAME = 1 ? pthread_join(NAME) : 2;",
    "NAME = pthread_join(NAME, NULL);",
    'printf("%d\\n", NAME && NAME);',
    'printf("%d %d\\n", NAME(1), NAME ? 1 : NAME);',
    'printf("%d %d\\n", NAME);',
    'printf("%x\\n", NAME);',
    'printf("%d%d%d%d%d", 1, 2, 3, 4, 5);',
    "printf(NAME);",
    "printf();",
    "pthread_mutex_lock(&NAME);",
    "pthread_mutex_lock(&NAME[NAME ? 1 : 0]);",
    "pthread_join(NAME[NAME(1)], NULL);",
    "pthread_create(&NAME, NULL, NAME, NULL);",
    "pthread_create(&NAME[0], NULL, NAME, (void *)NAME(1));",
    "pthread_exit((void *)(NAME ? 1 : 2));",
    "return (void *)NAME(1);",
]
# What may be put before a declaration at file scope; INITIAL is an initialiser of some shape.
DECLARATIONS = [
    "int MINE[2][2] = INITIAL;",
    "const char MINE[3][2] = INITIAL;",
    "unsigned MINE[2][1][2] = INITIAL;",
    "long MINE[4] = INITIAL;",
    "int MINE = INITIAL;",
    "int MINE[2][2] = 1;",
    "int MINE[2][2], NAME[3];",
    "int MINE[1][1][1][1];",
    "int MINE[70][70];",
    "int MINE[18446744073709551615u][18446744073709551615u];",
    "pthread_t MINE[2][2];",
    "pthread_mutex_t MINE[2] = PTHREAD_MUTEX_INITIALIZER;",
    "int MINE(int a[2]);",
    "int MINE(void); int OTHER(void){return 1 + MINE();}",
    "int MINE(int a){return a ? MINE(a - 1) : 0;}",
    "void MINE(void){} int OTHER(void){return 1 ? MINE() : 2;}",
    "int MINE(int a){switch (a) {case 1: return 2;}} int OTHER(void){return MINE(2) + 1;}",
]
CONSTANTS = (
    "0 1 2 7 31 32 64 255 2147483647 4294967295 2147483648 9223372036854775807 18446744073709551615 "
    "18446744073709551616 0u 3ul 0x80000000 'a' 08 1.5"
).split()
TOKENS = (
    "{ } ( ) [ ] ; , ? : && || ! - + = == ++ case default switch break int char unsigned long const void if else"
).split()
BINARY = "* / % + - << >> < > <= >= == != & ^ | && ||".split()


def initial(draw: random.Random, depth: int = 0) -> str:
    if depth and draw.random() < 0.45 + 0.15 * depth:
        odd = ["3 - 4", "(5)", "1 && 1", "NAME", "6u", "'\\n'"]
        return draw.choice(odd if draw.random() < 0.2 else ["1", "2"])
    items = [initial(draw, depth + 1) for _ in range(draw.randrange(1, 4))]
    return f"{{{', '.join(items)}{',' * (draw.random() < 0.1)}}}"


class Change:
    """Changes of one text, in the order of which each is made where the text stands by then."""

    def __init__(self, text: str, draw: random.Random) -> None:
        self.draw, self.text = draw, text
        self.tokens = Lexer(text).lexed()[:-1]
        self.names = sorted({token.text for token in self.tokens if token.kind == "name"})
        self.parts = [text[token.at : token.at + len(token.text)] for token in self.tokens]

    def filled(self, form: str) -> str:
        """A form with names put in."""
        while "INITIAL" in form:
            form = form.replace("INITIAL", initial(self.draw), 1)
        while "NAME" in form:
            form = form.replace("NAME", self.draw.choice(self.names), 1)
        return form.replace("MINE", "mine").replace("OTHER", "other")

    def places(self, kinds: tuple[str, ...]) -> list[int]:
        return [at for at, token in enumerate(self.tokens) if token.kind in kinds]

    def choose(self, places: list[int]) -> int:
        return self.draw.choice(places) if places else self.draw.randrange(len(self.tokens))

    def depth_before(self, at: int) -> int:
        """How many braces are open before a token."""
        return sum({"{": 1, "}": -1}.get(token.kind, 0) for token in self.tokens[:at])

    def change(self) -> None:
        kind, draw = self.draw.randrange(12), self.draw
        at = draw.randrange(len(self.tokens))
        if kind < 4:
            # behind the end of a statement in a body
            ends = [it + 1 for it in self.places((";", "{", "}", ":")) if it + 1 < len(self.tokens)]
            at = self.choose([it for it in draw.sample(ends, min(20, len(ends))) if self.depth_before(it)])
            self.parts[at] = f"{self.filled(draw.choice(STATEMENTS))} {self.parts[at]}"
        elif kind < 5:
            starts = [it for it in draw.sample(range(len(self.tokens)), min(200, len(self.tokens)))]
            starts = [it for it in starts if self.begins_external(it)] or [0]
            at = draw.choice(starts)
            self.parts[at] = f"{self.filled(draw.choice(DECLARATIONS))} {self.parts[at]}"
        elif kind < 6:
            self.parts[self.choose(self.places(("name",)))] = draw.choice(self.names)
        elif kind < 8:
            self.parts[self.choose(self.places(("constant",)))] = draw.choice(CONSTANTS)
        elif kind < 9:
            self.parts[self.choose(self.places(tuple(BINARY)))] = draw.choice(BINARY)
        elif kind < 10:
            self.parts[at] = draw.choice(["", self.parts[at] * 2, draw.choice(TOKENS), draw.choice(self.parts)])
        elif kind < 11:
            # an index more or fewer, or a case label twice
            at = self.choose(self.places(("[", "case", "default")))
            more = {"[": "[0][", "case": "case 1: case", "default": "default: default"}
            self.parts[at] = more.get(self.parts[at], "")
        else:
            size = draw.randrange(1, 12)
            moved = self.parts[at : at + size]
            to = draw.randrange(len(self.parts))
            self.parts[to] = f"{' '.join(moved)} {self.parts[to]}"

    def begins_external(self, at: int) -> bool:
        """Whether a declaration at file scope begins with the token."""
        before: Token | None = self.tokens[at - 1] if at else None
        return self.depth_before(at) == 0 and (before is None or before.kind in (";", "}"))

    def changed(self) -> str:
        """With the blanks of the text between its tokens."""
        found, end = "", 0
        for token, part in zip(self.tokens, self.parts):
            found += self.text[end : token.at] + part
            end = token.at + len(token.text)
        return found + self.text[end:]


def changed_by_tokens(text: str, draw: random.Random) -> str:
    change = Change(text, draw)
    for _ in range(draw.choice([1, 1, 1, 2])):
        change.change()
    return change.changed()
