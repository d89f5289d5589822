"""Random programs of one thread of the profile, without undefined steps, each from a seed."""
from __future__ import annotations

import random
from typing import Any

UNSIGNED = ["unsigned char", "unsigned short", "unsigned", "unsigned long"]
SIGNED = ["char", "short", "int", "long"]
WORDS = (
    "clk en need done beat stage state reg wire module begin initial always assign input output array array_0 array_3 "
    "argument top top_rr t_0 u_x_0 bank_x_0 idle arbiter mutex barrier forkjoin printer fn_main pref_0 posedge x x_1 "
    "x_12 _ _1 unit word"
).split()
FORMATS = {"int": "%d", "unsigned": "%u", "long": "%ld", "unsigned long": "%lu"}


class Scope:
    """What stands in sight: scalars with their types, arrays with their types, lengths and where one is a part, its
    first index; and which of them are not written."""

    def __init__(self, outer: Scope | None = None) -> None:
        self.scalars: dict[str, str] = dict(outer.scalars) if outer else {}
        self.arrays: dict[str, tuple[Any, ...]] = dict(outer.arrays) if outer else {}
        self.fixed: set[str] = set(outer.fixed) if outer else set()
        self.own: set[str] = set()

    def hide(self, name: str) -> None:
        self.scalars.pop(name, None)
        self.arrays.pop(name, None)
        self.fixed.discard(name)


class Writer:
    def __init__(self, seed: int | str) -> None:
        self.draw = random.Random(seed)
        self.words = list(WORDS)
        self.lines: list[str] = []
        self.functions: list[tuple[Any, ...]] = []
        self.count, self.sites, self.room, self.inside = 0, 0, 60, 0

    def name(self, stem: str) -> str:
        """A fresh name; some are words of Verilog or names of a written net."""
        self.count += 1
        if self.words and self.draw.random() < 0.06:
            return self.words.pop(self.draw.randrange(len(self.words)))
        return f"{stem}{self.count}"

    # ---- expressions: the type that an operator works in is forced by casts, so nothing overflows

    def leaf(self, scope: Scope) -> str:
        kinds = ["constant"] + ["scalar"] * 3 * bool(scope.scalars) + ["element"] * 2 * bool(scope.arrays)
        kind = self.draw.choice(kinds)
        if kind == "scalar":
            return self.draw.choice(sorted(scope.scalars))
        if kind == "element":
            array = self.draw.choice(sorted(scope.arrays))
            return f"{array}[{self.index(scope, array)}]"
        value = self.draw.choice(
            [0, 1, 2, 7, 255, 256, 65535, self.draw.randrange(1 << 16), self.draw.randrange(1 << 31)]
        )
        return self.draw.choice([str(value), f"{value}u", hex(value), f"{value}ul"])

    def index(self, scope: Scope, array: str) -> str:
        _, length, *first = scope.arrays[array]
        return "".join(f"{it} + " for it in first) + self.below(scope, length)

    def below(self, scope: Scope, length: int) -> str:
        """A number below a length."""
        loops = [it for it in sorted(scope.fixed) if scope.scalars.get(it)]
        chosen = self.draw.choice(loops) if loops and self.draw.random() < 0.5 else f"({self.leaf_scalar(scope)})"
        return f"(unsigned){chosen} % {length}u"

    def leaf_scalar(self, scope: Scope) -> str:
        return self.draw.choice(sorted(scope.scalars)) if scope.scalars else str(self.draw.randrange(100))

    def unsigned(self, scope: Scope, depth: int) -> str:
        """An expression of type unsigned or unsigned long."""
        if depth == 0:
            return f"({self.draw.choice(['unsigned', 'unsigned long'])})({self.leaf(scope)})"
        a, b = self.unsigned(scope, depth - 1), self.unsigned(scope, depth - 1 if self.draw.random() < 0.6 else 0)
        kind = self.draw.randrange(12)
        if kind < 5:
            return f"({a} {self.draw.choice(['+', '-', '*', '&', '|', '^'])} {b})"
        if kind < 6:
            return f"({a} {self.draw.choice(['/', '%'])} ({b} | 1u))"
        if kind < 8:
            return f"({a} {self.draw.choice(['<<', '>>'])} ({b} & {self.draw.choice([3, 15, 31])}u))"
        if kind < 9:
            return f"({self.draw.choice('~-+')}{a})"
        if kind < 10:
            return f"(unsigned)({a} {self.draw.choice(['<', '>', '<=', '>=', '==', '!='])} {b})"
        return f"({self.draw.choice(UNSIGNED + SIGNED)})({a}) + 0u" if kind == 10 else f"(unsigned)(!{a})"

    def signed(self, scope: Scope, depth: int) -> str:
        """An expression of type int or long, of small numbers, so that no operator overflows."""
        a = f"(int)({self.unsigned(scope, depth)} & {self.draw.choice([15, 127, 1023])}u)"
        b = f"(int)({self.unsigned(scope, 0)} & 63u)"
        kind = self.draw.randrange(7)
        if kind < 3:
            return f"({a} {self.draw.choice(['+', '-', '*'])} {b})"
        if kind < 4:
            return f"(({a} - 40) {self.draw.choice(['/', '%'])} ({b} + 1))"
        if kind < 5:
            return f"(({a} - 30) >> ({b} & 7))"
        return f"(-{a})" if kind == 5 else f"({self.draw.choice(SIGNED)})({self.unsigned(scope, depth)})"

    def value(self, scope: Scope, depth: int = 2) -> str:
        return self.unsigned(scope, depth) if self.draw.random() < 0.6 else self.signed(scope, depth - 1)

    def condition(self, scope: Scope, depth: int = 1) -> str:
        if depth and self.draw.random() < 0.4:
            a, b = self.condition(scope, depth - 1), self.condition(scope, depth - 1)
            return self.draw.choice([f"({a} && {b})", f"({a} || {b})", f"!({a})"])
        return f"{self.value(scope, 1)} {self.draw.choice(['<', '>', '<=', '>=', '==', '!='])} {self.value(scope, 1)}"

    # ---- statements

    def target(self, scope: Scope) -> tuple[str, str] | tuple[None, None]:
        free = [it for it in sorted(scope.scalars) if it not in scope.fixed]
        arrays = [it for it in sorted(scope.arrays) if it not in scope.fixed]
        if arrays and (not free or self.draw.random() < 0.4):
            array = self.draw.choice(arrays)
            return f"{array}[{self.index(scope, array)}]", scope.arrays[array][0]
        name = self.draw.choice(free) if free else None
        return (name, scope.scalars[name]) if name else (None, None)

    def put(self, depth: int, text: str) -> None:
        self.lines.append("  " * depth + text)

    def assign(self, scope: Scope, depth: int) -> None:
        name, kind = self.target(scope)
        if not name or not kind:
            return self.put(depth, ";")
        draw = self.draw.random()
        if draw < 0.1 and kind.startswith("unsigned") and "[" not in name:
            self.put(depth, self.draw.choice([f"{name}++;", f"--{name};"]))
        elif draw < 0.3 and kind.startswith("unsigned") and kind in ("unsigned", "unsigned long"):
            self.put(
                depth, f"{name} {self.draw.choice(['+=', '-=', '*=', '^=', '&=', '|='])} {self.unsigned(scope, 1)};"
            )
        elif draw < 0.45 and self.functions:
            self.call(scope, depth, name)
        else:
            self.put(depth, f"{name} = {self.value(scope)};")

    def call(self, scope: Scope, depth: int, name: str) -> None:
        # an index that hangs on a global may be evaluated before the call or behind it (C99 6.5.16): here it is the
        # first of those that are allowed
        array, bracket, _ = name.partition("[")
        if bracket:
            _, _, *first = scope.arrays[array]
            name = f"{array}[{first[0] if first else 0}]"
        function, parameters, returns = self.draw.choice(self.functions)
        arguments = ", ".join(self.value(scope, 1) for _ in parameters)
        self.put(depth, f"{name} = {function}({arguments});" if returns else f"{function}({arguments});")

    def print(self, scope: Scope, depth: int) -> None:
        if self.sites > 40:
            return
        self.sites += 1
        kinds = [self.draw.choice(sorted(FORMATS)) for _ in range(self.draw.randrange(1, 4))]
        text = " ".join(FORMATS[it] for it in kinds)
        self.put(depth, f'printf("{text}\\n", {", ".join(f"({it})({self.value(scope, 1)})" for it in kinds)});')

    def block(self, outer: Scope, depth: int, loops: int, statements: int, prints: bool) -> None:
        scope = Scope(outer)
        for _ in range(self.draw.randrange(3)):
            self.declare(scope, depth)
        for _ in range(statements):
            self.statement(scope, depth, loops, prints)

    def declare(self, scope: Scope, depth: int, length: int | None = None) -> None:
        kind = self.draw.choice(UNSIGNED + SIGNED)
        outer = (
            [
                it
                for it in sorted({*scope.scalars, *scope.arrays})
                if it.isidentifier() and it != "id" and it not in scope.own
            ]
            if depth > 1
            else []
        )
        name = self.draw.choice(outer) if outer and self.draw.random() < 0.08 else self.name("v")
        scope.own.add(name)
        scope.hide(name)
        if length or self.draw.random() < 0.2:
            length = length or self.draw.choice([2, 4, 5, 8])
            index = self.name("i")
            self.put(depth, f"{kind} {name}[{length}]; int {index};")
            head = f"for ({index} = 0; {index} < {length}; {index}++)"
            self.put(depth, f"{head} {name}[{index}] = {index} * {self.draw.randrange(9)};")
            scope.arrays[name] = (kind, length)
        else:
            self.put(depth, f"{kind} {name} = {self.value(scope, 1)};")
            scope.scalars[name] = kind

    def statement(self, scope: Scope, depth: int, loops: int, prints: bool) -> None:
        self.room -= 1
        if self.room < 0:
            return self.assign(scope, depth)
        kind = self.draw.randrange(14)
        if kind < 6 or depth > 4:
            self.assign(scope, depth)
        elif kind < 8 and prints:
            self.print(scope, depth)
        elif kind < 10:
            self.put(depth, f"if ({self.condition(scope)}) {{")
            self.block(scope, depth + 1, loops, self.draw.randrange(1, 3), prints)
            if self.draw.random() < 0.5:
                self.put(depth, "} else {")
                self.block(scope, depth + 1, loops, self.draw.randrange(1, 3), prints)
            self.put(depth, "}")
        elif kind < 12 and loops < 2:
            self.loop(scope, depth, loops, prints)
        elif kind < 13 and self.inside:
            self.put(depth, f"if ({self.condition(scope, 0)}) {self.draw.choice(['break', 'continue'])};")
        else:
            self.assign(scope, depth)

    def loop(self, scope: Scope, depth: int, loops: int, prints: bool) -> None:
        index, most = self.name("i"), self.draw.randrange(1, 6)
        inner = Scope(scope)
        inner.scalars[index] = "int"
        inner.fixed.add(index)
        form = self.draw.randrange(3)
        self.inside += 1
        if form == 0:
            self.put(depth, f"for (int {index} = 0; {index} < {most}; {index}++) {{")
            self.block(inner, depth + 1, loops + 1, self.draw.randrange(1, 4), prints)
            self.put(depth, "}")
            self.inside -= 1
            return
        self.put(depth, "{")
        self.put(depth + 1, f"int {index} = 0;")
        self.put(depth + 1, f"while ({index} < {most}) {{" if form == 1 else "do {")
        self.put(depth + 2, f"{index} = {index} + 1;")
        self.block(inner, depth + 2, loops + 1, self.draw.randrange(1, 3), prints)
        self.put(depth + 1, "}" if form == 1 else f"}} while ({index} < {most});")
        self.put(depth, "}")
        self.inside -= 1

    def function(self, globals_: Scope) -> None:
        name, returns = self.name("f"), self.draw.random() < 0.8
        parameters = [(self.name("p"), self.draw.choice(UNSIGNED + SIGNED)) for _ in range(self.draw.randrange(3))]
        kind = self.draw.choice(UNSIGNED + SIGNED) if returns else "void"
        self.put(0, f"{kind} {name}({', '.join(f'{it} {p}' for p, it in parameters) or 'void'}) {{")
        scope = Scope(globals_)
        scope.scalars.update(parameters)
        self.room = 10
        self.block(scope, 1, 1, self.draw.randrange(1, 4), False)
        if returns:
            self.put(1, f"return {self.value(scope, 1)};")
        self.put(0, "}")
        self.functions.append((name, parameters, returns))

    def globals(self, scope: Scope) -> None:
        for _ in range(self.draw.randrange(1, 4)):
            kind, name = self.draw.choice(UNSIGNED + SIGNED), self.name("g")
            if self.draw.random() < 0.5:
                length = self.draw.choice([2, 3, 4, 8, 16])
                values = ", ".join(str(self.draw.randrange(128)) for _ in range(self.draw.randrange(1, length + 1)))
                self.put(0, f"{kind} {name}[{length}] = {{{values}}};")
                scope.arrays[name] = (kind, length)
            else:
                self.put(0, f"{kind} {name} = {self.draw.randrange(128)};")
                scope.scalars[name] = kind

    def program(self) -> None:
        scope = Scope()
        self.globals(scope)
        for _ in range(self.draw.randrange(3)):
            self.function(scope)
        self.put(0, "int main(void) {")
        self.room = self.draw.randrange(10, 50)
        self.block(scope, 1, 0, self.draw.randrange(4, 12), True)
        for name, kind in sorted(scope.scalars.items()):
            self.put(1, f'printf("%ld\\n", (long){name});')
        for name, (kind, length) in sorted(scope.arrays.items()):
            index = self.name("i")
            self.put(
                1, f'for (int {index} = 0; {index} < {length}; {index}++) printf("%ld\\n", (long){name}[{index}]);'
            )
        self.put(1, "return 0;")
        self.put(0, "}")

    def text(self) -> str:
        self.put(0, "#include <stdio.h>")
        self.program()
        return "\n".join(self.lines) + "\n"
