"""Random programs with switch, `?:`, calls and short circuits inside expressions and arrays of two and three
dimensions, each from a seed, without undefined steps: of one thread, and with threads whose output no interleaving
changes. C leaves open in which order the operands of most operators are evaluated (6.5), so a function that writes a
global is called only where C fixes the order; others write none. Those of TracedWriter tell the order of their calls,
which the profile fixes and C does not, and may come to an undefined step."""
from __future__ import annotations

import random
from typing import Union

from programs import SIGNED, UNSIGNED, Scope, Writer
from threads import Group, ThreadedWriter

# The type, a function of the text of a value, what it is masked by, and labels that the value may have.
OPERANDS = [
    ("unsigned", "{} % 6u", ["0", "1u", "2", "3ul", "4", "5", "-1", "4294967295", "0x100000002"]),
    ("int", "(int)({} & 7u) - 3", ["-3", "-2", "-1", "0", "1", "1 + 1", "3", "4", "4294967295u", "'a'"]),
    ("char", "(char)({} & 3u)", ["0", "1", "2", "3", "256", "'\\0' + 4", "-128"]),
    ("long", "(long)({} & 3u) - 5000000000", ["-5000000000", "-4999999999L", "-4999999998", "1", "-1 - 4999999996"]),
    ("unsigned long", "(unsigned long)({} & 3u)", ["0", "1l", "2ul", "3", "-1", "18446744073709551614u"]),
    ("int", "({} & 1u) == 1u", ["0", "1", "2", "!0 + 7"]),
]
Lengths = Union[int, tuple[int, ...]]
# How many cuts a function has at most, but for some.
MOST_CUTS = 16


def lengths_of(length: Lengths) -> tuple[int, ...]:
    return length if isinstance(length, tuple) else (length,)


class More(Writer):
    """What both kinds of programs have of the forms."""

    def __init__(self, seed: int | str) -> None:
        super().__init__(seed)
        # functions that write no global: name, parameters, type
        self.pure: list[tuple[str, list[tuple[str, str]], str]] = []
        self.switches, self.cuts = 0, 0

    def maybe(self, chance: float) -> bool:
        return self.draw.random() < chance

    # ---- arrays

    def index(self, scope: Scope, array: str) -> str:
        """The indices of an element, without the outermost brackets."""
        _, length, *first = scope.arrays[array]
        if not isinstance(length, tuple):
            return super().index(scope, array)
        return "][".join([*first, *(self.below(scope, part) for part in length[len(first) :])])

    def below(self, scope: Scope, length: int) -> str:
        if self.cuts < MOST_CUTS and self.maybe(0.06):
            return f"(unsigned){self.cut(scope, -1)} % {length}u"
        return super().below(scope, length)

    def shape(self) -> Lengths:
        """One to three dimensions of few elements."""
        return self.draw.choice([2, 3, 5, (2, 3), (3, 2), (4, 4), (1, 5), (2, 2, 2), (2, 1, 3), (3, 2, 2)])

    def brackets(self, lengths: Lengths) -> str:
        return "".join(f"[{self.constant(length)}]" for length in lengths_of(lengths))

    def constant(self, number: int) -> str:
        """A constant expression of this value."""
        forms = [str(number)] * 4 + [f"{number + 1} - 1", f"({number})", hex(number)]
        return self.draw.choice(forms)

    def initial(self, lengths: tuple[int, ...], depth: int = 0) -> str:
        """A list by levels, each of which may be shorter than its dimension."""
        count = self.draw.randrange(1, lengths[0] + 1) if self.maybe(0.4) else lengths[0]
        if len(lengths) == 1:
            items = [str(self.draw.randrange(-100, 128)) for _ in range(count)]
        else:
            items = [self.initial(lengths[1:], depth + 1) for _ in range(count)]
        return f"{{{', '.join(items)}{',' * self.maybe(0.1)}}}"

    def initial_list(self, lengths: Lengths) -> str:
        product = 1
        for length in lengths_of(lengths):
            product *= length
        return self.initial((product,) if self.maybe(0.4) else lengths_of(lengths))

    def array_text(self, kind: str, name: str, lengths: Lengths) -> str:
        initial = f" = {self.initial_list(lengths)}" if self.maybe(0.7) else ""
        return f"{kind} {name}{self.brackets(lengths)}{initial};"

    def each_element(self, lengths: Lengths, name: str, line: str) -> list[str]:
        """Loops over all elements, with their own variables, round a line of an element and of a sum of indices."""
        indices = [self.name("i") for _ in lengths_of(lengths)]
        heads = [f"for (int {i} = 0; {i} < {n}; {i}++)" for i, n in zip(indices, lengths_of(lengths))]
        element = name + "".join(f"[{i}]" for i in indices)
        return [" ".join([*heads, line.format(element=element, sum=" + ".join(indices))])]

    def declare(self, scope: Scope, depth: int, length: int | None = None) -> None:
        if length or self.maybe(0.85):
            super().declare(scope, depth, length)
            return
        kind, name, lengths = self.draw.choice(UNSIGNED + SIGNED), self.name("v"), self.shape()
        scope.own.add(name)
        self.put(depth, f"{kind} {name}{self.brackets(lengths)};")
        for line in self.each_element(lengths, name, f"{{element}} = ({{sum}}) * {self.draw.randrange(9)};"):
            self.put(depth, line)
        scope.arrays[name] = (kind, lengths)

    # ---- values

    def cut(self, scope: Scope, depth: int) -> str:
        """A call, a choice or a short circuit, of any type; at a depth of -1 of scalars alone."""
        self.cuts += 1
        kind = self.draw.randrange(6)
        if kind < 2 and self.pure:
            function, parameters, _ = self.draw.choice(self.pure)
            return f"{function}({', '.join(self.argument(scope, depth) for _ in parameters)})"
        if kind < 4:
            return f"({self.test(scope, depth)} ? {self.operand(scope, depth)} : {self.operand(scope, depth)})"
        return f"({self.test(scope, depth)} {self.draw.choice(['&&', '||'])} {self.test(scope, depth)})"

    def argument(self, scope: Scope, depth: int) -> str:
        return self.leaf_scalar(scope) if depth < 0 else self.value(scope, depth)

    def test(self, scope: Scope, depth: int) -> str:
        if depth < 0:
            return f"{self.draw.choice(['', '!'])}{self.leaf_scalar(scope)}"
        return self.condition(scope, 0)

    def operand(self, scope: Scope, depth: int) -> str:
        """One of the two operands of a choice: of any type."""
        if depth < 0:
            return self.leaf_scalar(scope)
        kind = self.draw.randrange(5)
        if kind == 0:
            return self.leaf(scope)
        if kind == 1:
            return f"({self.draw.choice(UNSIGNED + SIGNED)})({self.unsigned(scope, depth)})"
        return self.value(scope, depth) if kind < 4 or self.cuts > MOST_CUTS else self.cut(scope, depth - 1)

    def unsigned(self, scope: Scope, depth: int) -> str:
        if self.cuts < MOST_CUTS and self.maybe(0.06):
            kind = self.draw.choice(["unsigned", "unsigned long"])
            return f"({kind}){self.cut(scope, depth - 1)}"
        return super().unsigned(scope, max(0, depth))

    def condition(self, scope: Scope, depth: int = 1) -> str:
        if self.cuts < MOST_CUTS and self.maybe(0.1):
            found = self.cut(scope, depth - 1)
            return self.draw.choice([found, f"!{found}", f"{found} != {self.draw.randrange(3)}", f"({found}) + 0u"])
        return super().condition(scope, depth)

    # ---- functions

    def pure_function(self, tables: Scope) -> None:
        """A function of its parameters and of tables."""
        name, kind = self.name("f"), self.draw.choice(UNSIGNED + SIGNED)
        parameters = [(self.name("p"), self.draw.choice(UNSIGNED + SIGNED)) for _ in range(self.draw.randrange(1, 4))]
        self.put(0, f"{kind} {name}({', '.join(f'{it} {p}' for p, it in parameters)}) {{")
        scope = Scope(tables)
        scope.scalars.update(parameters)
        self.room, self.cuts = 4, MOST_CUTS - 4
        if self.maybe(0.5):
            self.block(scope, 1, 1, self.draw.randrange(2), False)
        if self.maybe(0.3):
            self.switch(scope, 1, 1, False, returns=True)
        self.put(1, f"return {self.cut(scope, 0) if self.maybe(0.4) else self.value(scope, 1)};")
        self.put(0, "}")
        self.cuts = 0
        self.pure.append((name, parameters, kind))

    # ---- switches

    def switch(self, scope: Scope, depth: int, loops: int, prints: bool, returns: bool = False) -> None:
        """Labels in any order, groups that fall through, default anywhere or nowhere."""
        kind, form, labels = self.draw.choice(OPERANDS)
        operand = form.format(f"({self.cut(scope, 0) if self.maybe(0.3) else self.unsigned(scope, 0)})")
        # each of the labels once, also where two spell one value of the type
        values: list[str] = []
        for label in self.draw.sample(labels, self.draw.randrange(len(labels))):
            if all(self.is_other(kind, label, other) for other in values):
                values.append(label)
        groups: list[list[str]] = [[f"case {label}:"] for label in values]
        if self.maybe(0.7):
            groups.insert(self.draw.randrange(len(groups) + 1), ["default:"])
        self.put(depth, f"switch ({operand}) {{")
        self.switches += 1
        for group in groups:
            self.put(depth, group[0])
            if self.maybe(0.25):
                continue
            self.group(scope, depth + 1, loops, prints, returns)
        self.switches -= 1
        self.put(depth, "}")

    def is_other(self, kind: str, label: str, other: str) -> bool:
        """Whether two labels of OPERANDS are two values of the promoted type."""
        width = 64 if "long" in kind else 32
        first, second = (number_of(it) % (1 << width) for it in (label, other))
        return first != second

    def group(self, scope: Scope, depth: int, loops: int, prints: bool, returns: bool) -> None:
        if self.maybe(0.3):
            self.put(depth, "{")
            self.block(scope, depth + 1, loops, self.draw.randrange(1, 3), prints)
            self.put(depth, "}")
        else:
            for _ in range(self.draw.randrange(1, 3)):
                self.statement(scope, depth, loops, prints)
        if returns and self.maybe(0.3):
            self.put(depth, f"return {self.value(scope, 1)};")
        elif self.maybe(0.55):
            self.put(depth, "continue;" if self.inside and self.maybe(0.15) else "break;")

    def statement(self, scope: Scope, depth: int, loops: int, prints: bool) -> None:
        if self.room > 0 and depth <= 4 and self.maybe(0.14):
            self.room -= 2
            self.switch(scope, depth, loops, prints)
        elif self.switches and self.maybe(0.06):
            self.put(depth, f"if ({self.condition(scope, 0)}) break;")
        elif self.maybe(0.05):
            self.deep_assign(scope, depth)
        else:
            super().statement(scope, depth, loops, prints)

    def deep_assign(self, scope: Scope, depth: int) -> None:
        """A chain of choices, as a table would be written."""
        name, _ = self.target(scope)
        conditions = [self.condition(scope, 0) for _ in range(self.draw.randrange(2, 4))]
        values = [self.leaf(scope) for _ in range(len(conditions) + 1)]
        chain = "".join(f"{condition} ? {value} : " for condition, value in zip(conditions, values))
        self.put(depth, f"{name} = {chain}{values[-1]};" if name else ";")

    def call(self, scope: Scope, depth: int, name: str) -> None:
        """Calls in an order that C fixes: the whole of a right side, operands of && and ||, the operands of a choice,
        an argument that is the only one with a call in it, an operand of a switch."""
        array, bracket, _ = name.partition("[")
        if bracket:
            _, length, *first = scope.arrays[array]
            rest = len(length) - len(first) if isinstance(length, tuple) else int(not first)
            name = array + "".join(f"[{it}]" for it in first) + "[0]" * rest
        function, parameters, returns = self.draw.choice(self.functions)
        one = f"{function}({', '.join(self.value(scope, 1) for _ in parameters)})"
        if not returns:
            self.put(depth, f"{one};")
            return
        other, parameters, returns = self.draw.choice(self.functions)
        if not returns:
            self.put(depth, f"{name} = {one};")
            return
        arguments = [self.value(scope, 0) for _ in parameters]
        two = f"{other}({', '.join(arguments)})"
        inside = f"{other}({', '.join([one, *('7' for _ in arguments[1:])])})" if parameters else two
        forms = [
            f"{name} = {one};",
            f"{name} = {inside};",
            f"{name} = {one} && {two};",
            f"{name} = !({one} || {two} != 3);",
            f"{name} = {self.condition(scope, 0)} ? {one} : {two};",
            f"{name} = {one} ? {two} : {one};",
            f"if ({one} {self.draw.choice(['&&', '||'])} {two}) {name} = 1;",
            f"switch ({one}) {{ case 0: case 1: {name} = 2; break; default: {two}; }}",
            f"{two};",
        ]
        self.put(depth, self.draw.choice(forms))


def number_of(label: str) -> int:
    """The value of a label of OPERANDS."""
    words = label.replace("ul", "").replace("u", "").replace("L", "").replace("l", "")
    words = words.replace("'a'", "97").replace("'\\0'", "0").replace("!0", "0")
    return int(eval(words, {"__builtins__": {}}))  # noqa: S307, labels of this file


class MoreWriter(More):
    """Programs of one thread."""

    def globals(self, scope: Scope) -> None:
        super().globals(scope)
        for _ in range(self.draw.randrange(1, 4)):
            kind, name, lengths = self.draw.choice(UNSIGNED + SIGNED), self.name("g"), self.shape()
            self.put(0, self.array_text(kind, name, lengths))
            scope.arrays[name] = (kind, lengths)

    def tables(self) -> Scope:
        tables = Scope()
        for _ in range(self.draw.randrange(2)):
            kind, name, lengths = self.draw.choice(UNSIGNED + SIGNED), self.name("k"), self.shape()
            self.put(0, "const " + self.array_text(kind, name, lengths))
            tables.arrays[name] = (kind, lengths)
            tables.fixed.add(name)
        return tables

    def program(self) -> None:
        tables = self.tables()
        for _ in range(self.draw.randrange(1, 4)):
            self.pure_function(tables)
        scope = Scope(tables)
        self.globals(scope)
        for _ in range(self.draw.randrange(3)):
            self.function(scope)
            self.cuts = 0
        self.put(0, "int main(void) {")
        self.room = self.draw.randrange(8, 30)
        self.block(scope, 1, 0, self.draw.randrange(3, 9), True)
        for name in sorted(scope.scalars):
            self.put(1, f'printf("%ld\\n", (long){name});')
        for name, (_, lengths) in sorted(scope.arrays.items()):
            for line in self.each_element(lengths, name, 'printf("%ld\\n", (long){element});'):
                self.put(1, line)
        self.put(1, "return 0;")
        self.put(0, "}")


class MoreThreadedWriter(More, ThreadedWriter):
    """Programs with threads, of which each has a row of its own of arrays of two and three dimensions."""

    def __init__(self, seed: int | str) -> None:
        super().__init__(seed)
        self.rows: dict[int, dict[str, tuple[str, tuple[int, ...]]]] = {}

    def declare_slices(self, group: Group) -> None:
        super().declare_slices(group)
        self.rows[id(group)] = {}
        for _ in range(self.draw.randrange(2)):
            name, kind = self.name("g"), self.draw.choice(UNSIGNED + SIGNED)
            lengths = (group.size, *self.draw.choice([(2,), (3,), (2, 2), (1, 3)]))
            self.put(0, self.array_text(kind, name, lengths))
            self.rows[id(group)][name] = (kind, lengths)

    def owns(self, group: Group, scope: Scope) -> None:
        super().owns(group, scope)
        for name, (kind, lengths) in self.rows[id(group)].items():
            scope.arrays[name] = (kind, lengths, "id")

    def results(self, groups: list[Group]) -> None:
        super().results(groups)
        for group in groups:
            for name, (_, lengths) in self.rows[id(group)].items():
                for line in self.each_element(lengths, name, 'printf("%ld\\n", (long){element});'):
                    self.put(1, line)

    def declare_tables(self) -> Scope:
        tables = super().declare_tables()
        for _ in range(self.draw.randrange(1, 3)):
            self.pure_function(tables)
        return tables


class TracedWriter:
    """Small programs whose calls note their order: what they print the profile says, and no other C compiler."""

    HEAD = """#include <stdio.h>
unsigned n;
int a[4] = {3, 1, 2};
int g[2][3] = {{1, 2}, {0, 1, 3}};
char h[2][2][2] = {0, 1, 1, 0, 2, 3, 1};
int t(int x) { n = n * 7u + (unsigned)x; return x; }
char s(int x) { printf("%d\\n", x); return x * 50; }
int two(int x, unsigned y) { n += y; return x - (int)y; }
int some(int x) { if (x > 0) return t(x); }
void v(int x) { n ^= (unsigned)x; }
"""

    def __init__(self, seed: int | str) -> None:
        self.draw = random.Random(f"traced {seed}")
        self.lines: list[str] = []
        self.names = ["x", "y"]

    def below(self, length: int, depth: int) -> str:
        """An index; seldom one that may be past the end."""
        e = self.value(depth - 1)
        return e if self.draw.random() < 0.05 else f"({e}) & 1" if length < 4 else f"({e}) & 3"

    def element(self, depth: int) -> str:
        lengths = self.draw.choice([("a", 4), ("g", 2, 3), ("h", 2, 2, 2)])
        return lengths[0] + "".join(f"[{self.below(length, depth)}]" for length in lengths[1:])

    def value(self, depth: int) -> str:
        kind = self.draw.randrange(14 if depth > 0 else 3)
        if kind == 0:
            return str(self.draw.randrange(4))
        if kind < 3:
            return self.draw.choice([*self.names, f"t({self.draw.randrange(5)})"])
        if kind < 5:
            return f"{self.draw.choice('tttss')}({self.value(depth - 1)})"
        if kind < 6:
            return f"two({self.value(depth - 1)}, {self.value(depth - 1)})"
        if kind < 8:
            return self.element(depth)
        if kind < 10:
            operator = self.draw.choice("+ - * & | ^ < == >= << / %".split())
            right = self.value(depth - 1)
            right = f"({right} | 1)" if operator in "/%" and self.draw.random() < 0.8 else right
            right = f"({right} & 7)" if operator == "<<" and self.draw.random() < 0.8 else right
            return f"({self.value(depth - 1)} {operator} {right})"
        if kind < 11:
            return f"({self.condition(depth - 1)} ? {self.value(depth - 1)} : {self.value(depth - 1)})"
        if kind < 12:
            return f"({self.condition(depth - 1)} {self.draw.choice(['&&', '||'])} {self.condition(depth - 1)})"
        if kind < 13:
            return f"{self.draw.choice(['!', '-', '~', '(char)', '(unsigned)', '(long)'])}({self.value(depth - 1)})"
        return f"some({self.value(depth - 1)} + {self.draw.randrange(1, 4)})"

    def condition(self, depth: int) -> str:
        if depth > 0 and self.draw.random() < 0.5:
            a, b = self.condition(depth - 1), self.condition(depth - 1)
            return self.draw.choice([f"{a} && {b}", f"{a} || ({b})", f"!({a})", f"({a} && {b}) || {a}"])
        return self.value(depth)

    def put(self, depth: int, line: str) -> None:
        self.lines.append("  " * depth + line)

    def switch(self, depth: int) -> None:
        self.put(depth, f"switch ({self.value(2)}) {{")
        labels = [f"case {value}:" for value in self.draw.sample(["0", "1", "2", "3", "-1", "50", "1 + 3"], 3)]
        labels.insert(self.draw.randrange(4), "default:")
        for label in labels[: self.draw.randrange(1, 5)]:
            self.put(depth, label)
            for _ in range(self.draw.randrange(3)):
                self.statement(depth + 1)
            if self.draw.random() < 0.4:
                self.put(depth + 1, "break;")
        self.put(depth, "}")

    def statement(self, depth: int) -> None:
        kind = self.draw.randrange(11)
        if kind < 3:
            operator = self.draw.choice(["=", "=", "+=", "^="])
            self.put(depth, f"{self.draw.choice([self.element(2), *self.names])} {operator} {self.value(3)};")
        elif kind < 4:
            self.put(depth, self.draw.choice([f"{self.element(2)}++;", f"--{self.element(1)};"]))
        elif kind < 6:
            self.put(depth, f'printf("%d %u\\n", {self.value(2)}, {self.value(2)});')
        elif kind < 7:
            self.put(depth, f"{self.draw.choice(['t', 's', 'v', 'some'])}({self.value(3)});")
        elif kind < 8:
            self.put(depth, f"{{ int z = {self.value(3)}; x = x ^ z; }}")
        elif kind < 9 and depth < 4:
            self.put(depth, f"if ({self.condition(2)})")
            self.statement(depth + 1)
        elif kind < 10 and depth < 4:
            self.put(depth, f"for (int i = 0; i < 3 && ({self.condition(1)}); i++)")
            self.statement(depth + 1)
        elif depth < 4:
            self.switch(depth)
        else:
            self.put(depth, ";")

    def text(self) -> str:
        self.put(0, "int f(int x) {")
        self.put(1, "int y = 2;")
        for _ in range(self.draw.randrange(3)):
            self.statement(1)
        self.put(1, f"return {self.value(2)};")
        self.put(0, "}")
        self.put(0, "int main(void) {")
        self.put(1, f"int x = {self.value(1).replace('y', '1').replace('x', '2')}, y = t(3);")
        for _ in range(self.draw.randrange(3, 9)):
            self.statement(1)
        self.put(1, 'printf("%d %d %u\\n", x, f(y), n);')
        self.put(1, "return 0;")
        self.put(0, "}")
        return self.HEAD + "\n".join(self.lines) + "\n"
