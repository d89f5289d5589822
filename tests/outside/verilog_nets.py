"""An independent reading of the Verilog texts that `hls sim` takes: where a text is no net that a simulator runs.
Written by hand from the grammar and the rules, not from the tool's code."""
from __future__ import annotations

import re
from typing import Any, Callable, Iterator, NoReturn, TypeVar

WORDS = "module endmodule input output wire reg assign initial always posedge begin end if".split()
MARKS = ["$signed", "$write", ">>>", "'sd", "<=", "==", "<<", ">>", "'d"] + list("()[]{};:,.@=?+-*/%&|^~<")
BLANK = re.compile(r"(?:[ \t\r\n]|//[^\n]*)*")
NAME = re.compile(r"[A-Za-z_][A-Za-z0-9_]*")
NUMBER = re.compile(r"[0-9]+")
QUOTED = re.compile(r'"((?:[ !#-\[\]-~]|\\[ -~])*)"')
T = TypeVar("T")
# Kind, value and offset.
Token = tuple[str, Any, int]
# A kind, and the parts of what is of it.
Item = tuple[Any, ...]
# Way, name and highest bit.
Port = tuple[str, str, "int | None"]
# Offset of the name, name, and ports and items with their offsets.
Module = tuple[int, str, "list[tuple[int, Port]]", "list[tuple[int, Item]]"]
OPERATORS = {"+", "-", "*", "&", "|", "^", "==", "<", "<<", ">>"}


class NotNet(Exception):
    def __init__(self, offset: int) -> None:
        super().__init__(offset)
        self.offset = offset


def tokens(text: str) -> tuple[list[Token], int]:
    """Kinds, values and offsets, and where the tokens end: at the text's end or before a byte at which none begins."""
    found: list[Token] = []
    at = 0
    while True:
        at = BLANK.match(text, at).end()
        if at == len(text):
            break
        if m := NAME.match(text, at):
            found.append(("word" if m[0] in WORDS else "name", m[0], at))
        elif m := NUMBER.match(text, at):
            if (m[0] != "0" and m[0][0] == "0") or int(m[0]) >= 1 << 64:
                break
            found.append(("number", int(m[0]), at))
        elif text[at] == '"':
            m = QUOTED.match(text, at)
            if not m:
                break
            found.append(("string", m[1], at))
        else:
            mark = next((it for it in MARKS if text.startswith(it, at)), None)
            if not mark:
                break
            found.append(("mark", mark, at))
            at += len(mark)
            continue
        at = m.end()
    return found, at


class Parser:
    def __init__(self, text: str) -> None:
        self.found, self.end = tokens(text)
        self.whole = self.end == len(text)
        self.at = 0

    def offset(self) -> int:
        return self.found[self.at][2] if self.at < len(self.found) else self.end

    def fail(self) -> NoReturn:
        raise NotNet(self.offset())

    def sees(self, value: str | int | None, kind: str = "mark") -> bool:
        return (
            self.at < len(self.found)
            and self.found[self.at][0] == kind
            and (value is None or self.found[self.at][1] == value)
        )

    def take(self, value: str | int | None, kind: str = "mark") -> Any:
        if not self.sees(value, kind):
            self.fail()
        self.at += 1
        return self.found[self.at - 1][1]

    def word(self, *values: str) -> None:
        for value in values:
            self.take(value, "word")

    def name(self) -> str:
        return self.take(None, "name")

    def number(self) -> int:
        return self.take(None, "number")

    def marks(self, *values: str) -> None:
        for value in values:
            self.take(value)

    def listed(self, item: Callable[[], T]) -> list[T]:
        found = [item()]
        while self.sees(","):
            self.take(",")
            found.append(item())
        return found

    def range(self) -> int | None:
        if not self.sees("["):
            return None
        self.take("[")
        high = self.number()
        self.take(":")
        self.take(0, "number")
        self.take("]")
        return high

    def constant(self, base: str = "'d") -> tuple[int, int]:
        width = self.number()
        self.take(base)
        return width, self.number()

    def signed(self) -> str:
        self.marks("$signed", "(")
        name = self.name()
        self.take(")")
        return name

    def right(self) -> Item:
        if self.sees(None, "name"):
            return self.behind_name(self.name())
        if self.sees(None, "number"):
            return ("constant", self.constant())
        if self.sees("~"):
            self.take("~")
            return ("not", self.name())
        if self.sees("$signed"):
            x = self.signed()
            if self.sees("<"):
                self.take("<")
                return ("signed less", x, self.signed())
            self.take(">>>")
            return ("arithmetic", x, self.name())
        if self.sees("("):
            return self.guarded()
        self.take("{")
        if self.sees(None, "name"):
            parts = self.listed(self.name)
            self.take("}")
            return ("parts", parts)
        count = self.number()
        self.take("{")
        x = self.name()
        self.marks("}", "}")
        return ("repeat", count, x)

    def behind_name(self, x: str) -> Item:
        operator = next((it for it in OPERATORS if self.sees(it)), None)
        if operator:
            self.take(operator)
            return ("binary", operator, x, self.name())
        if self.sees("?"):
            self.take("?")
            y = self.name()
            self.take(":")
            return ("choice", x, y, self.name())
        if self.sees("["):
            self.take("[")
            high = self.number()
            if self.sees("]"):
                self.take("]")
                return ("bit", x, high)
            self.take(":")
            low = self.number()
            self.take("]")
            return ("select", x, high, low)
        return ("copy", x)

    def guarded(self) -> Item:
        self.take("(")
        tested = self.name()
        if self.sees("=="):
            self.take("==")
            nought = self.constant()
            self.marks(")", "?")
            width = self.number()
            is_signed = not self.sees("'d")
            self.take("'sd" if is_signed else "'d")
            value = (width, self.number())
            self.take(":")
            operand = self.signed if is_signed else self.name
            x = operand()
            if not self.sees("/"):
                self.take("%")
            else:
                self.take("/")
            return ("division", tested, nought, value, x, operand())
        self.take("<")
        bound = self.constant()
        self.marks(")", "?")
        memory = self.name()
        self.take("[")
        address = self.name()
        self.marks("]", ":")
        return ("read", tested, bound, memory, address, self.constant())

    def statement(self) -> Item:
        if self.sees("if", "word"):
            self.word("if")
            self.take("(")
            x = self.name()
            self.take(")")
            self.word("begin")
            body = self.statements()
            self.word("end")
            return ("if", x, body)
        if self.sees(None, "name"):
            x = self.name()
            if self.sees("<="):
                self.take("<=")
                y = self.name()
                self.take(";")
                return ("set", x, y)
            self.take("[")
            address = self.name()
            self.marks("]", "<=")
            y = self.name()
            self.take(";")
            return ("store", x, address, y)
        self.marks("$write", "(")
        text, arguments = self.take(None, "string"), []
        while self.sees(","):
            self.take(",")
            arguments.append(self.name() if self.sees(None, "name") else self.signed())
        self.marks(")", ";")
        return ("write", text, arguments)

    def statements(self) -> list[Item]:
        found = []
        while self.sees("if", "word") or self.sees(None, "name") or self.sees("$write"):
            found.append(self.statement())
        return found

    def item(self) -> Item:
        if self.sees("wire", "word"):
            self.word("wire")
            high, x = self.range(), self.name()
            self.take(";")
            return ("wire", x, high)
        if self.sees("reg", "word"):
            self.word("reg")
            high, x = self.range(), self.name()
            if high is not None and self.sees("["):
                self.take("[")
                self.take(0, "number")
                self.take(":")
                last = self.number()
                self.marks("]", ";")
                return ("memory", x, high, last)
            self.take(";")
            return ("reg", x, high)
        if self.sees("assign", "word"):
            self.word("assign")
            x = self.name()
            self.take("=")
            value = self.right()
            self.take(";")
            return ("assign", x, value)
        if self.sees("initial", "word"):
            self.word("initial", "begin")
            found = []
            while self.sees(None, "name"):
                x, k = self.name(), None
                if self.sees("["):
                    self.take("[")
                    k = self.number()
                    self.take("]")
                self.take("=")
                found.append((x, k, self.constant()))
                self.take(";")
            self.word("end")
            return ("initial", found)
        if self.sees("always", "word"):
            self.word("always")
            self.marks("@", "(")
            self.word("posedge")
            self.take("clk", "name")
            self.take(")")
            self.word("begin")
            body = self.statements()
            self.word("end")
            return ("always", body)
        kind, x = self.name(), self.name()
        self.take("(")
        ties = self.listed(self.tie)
        self.marks(")", ";")
        return ("instance", x, kind, ties)

    def tie(self) -> tuple[str, str]:
        self.take(".")
        port = self.name()
        self.take("(")
        x = self.name()
        self.take(")")
        return port, x

    def port(self) -> Port:
        way = "input" if self.sees("input", "word") else "output"
        self.word(way, "wire")
        high = self.range()
        return way, self.name(), high

    def at_offset(self, item: Callable[[], T]) -> tuple[int, T]:
        offset = self.offset()
        return offset, item()

    def module(self) -> Module:
        self.word("module")
        offset, name = self.at_offset(self.name)
        self.take("(")
        ports = self.listed(lambda: self.at_offset(self.port))
        self.marks(")", ";")
        items = []
        while any(self.sees(it, "word") for it in ("wire", "reg", "assign", "initial", "always")) or self.sees(
            None, "name"
        ):
            items.append(self.at_offset(self.item))
        self.word("endmodule")
        return offset, name, ports, items

    def net(self) -> list[Module]:
        modules = [self.module()]
        while self.sees("module", "word"):
            modules.append(self.module())
        if self.at < len(self.found) or not self.whole:
            self.fail()
        return modules


def width(high: int | None) -> int:
    return 1 if high is None else high + 1 if high < 64 else 0


def walk(body: list[Item]) -> Iterator[Item]:
    for it in body:
        yield it
        if it[0] == "if":
            yield from walk(it[2])


def values_in(text: str) -> int | None:
    """How many values a string takes, or None where it has another escape than those that it may have."""
    if re.fullmatch(r'(?:%%|%0d|\\[nt\\"]|[^%\\])*', text) is None:
        return None
    return len(re.findall(r"%%|(%0d)", text)) - len(re.findall("%%", text))


class Scope:
    def __init__(self, module: Module) -> None:
        self.kinds: dict[str, tuple[Any, ...]] = {}
        for _, (way, name, high) in module[2]:
            self.kinds.setdefault(name, ("clk",) if name == "clk" else (way, width(high), high is not None))
        for _, it in module[3]:
            if it[0] in ("wire", "reg"):
                self.kinds.setdefault(it[1], (it[0], width(it[2]), it[2] is not None))
            elif it[0] == "memory":
                self.kinds.setdefault(it[1], ("memory", width(it[2]), it[3] + 1))
            elif it[0] == "instance":
                self.kinds.setdefault(it[1], ("instance",))

    def width(self, x: str) -> int:
        kind = self.kinds.get(x, ("",))
        return kind[1] if kind[0] in ("input", "output", "wire", "reg") else 0

    def ranged(self, x: str) -> int:
        return self.width(x) if self.width(x) and self.kinds[x][2] else 0

    def of(self, x: str, *kinds: str) -> int:
        kind = self.kinds.get(x, ("",))
        return kind[1] if kind[0] in kinds else 0

    def words(self, x: str) -> int:
        return self.kinds[x][2] if self.of(x, "memory") else 0

    def value(self, e: Item, w: int) -> bool:
        kind, width = e[0], self.width
        if kind in ("copy", "not"):
            return width(e[1]) == w
        if kind == "constant":
            return e[1][0] == w and e[1][1] < 1 << w
        if kind == "binary":
            if e[1] in ("==", "<"):
                return w == 1 and 0 < width(e[2]) == width(e[3])
            if e[1] in ("<<", ">>"):
                return width(e[2]) == w and width(e[3]) > 0
            return width(e[2]) == w == width(e[3])
        if kind == "signed less":
            return w == 1 and 0 < width(e[1]) == width(e[2])
        if kind == "arithmetic":
            return width(e[1]) == w and width(e[2]) > 0
        if kind == "choice":
            return width(e[1]) == 1 and width(e[2]) == w == width(e[3])
        if kind == "division":
            return e[1] == e[5] and e[2] == (w, 0) == e[3] and width(e[4]) == w == width(e[5])
        if kind == "read":
            wide = width(e[4])
            return (
                e[1] == e[4]
                and wide > 0
                and e[2][0] == wide
                and e[2][1] < 1 << wide
                and e[2][1] == self.words(e[3])
                and self.of(e[3], "memory") == w
                and e[5] == (w, 0)
            )
        if kind == "bit":
            return w == 1 and e[2] < self.ranged(e[1])
        if kind == "select":
            return e[3] <= e[2] < self.ranged(e[1]) and w == e[2] - e[3] + 1
        if kind == "parts":
            return all(width(it) > 0 for it in e[1]) and sum(map(width, e[1])) == w
        return width(e[2]) > 0 and e[1] * width(e[2]) == w

    def statement(self, s: Item) -> bool:
        if s[0] == "if":
            return self.width(s[1]) == 1 and all(map(self.statement, s[2]))
        if s[0] == "set":
            return 0 < self.of(s[1], "reg") == self.width(s[2])
        if s[0] == "store":
            return self.width(s[2]) > 0 and 0 < self.of(s[1], "memory") == self.width(s[3])
        return values_in(s[1]) == len(s[2]) and all(self.width(it) > 0 for it in s[2])

    def initial(self, x: str, k: int | None, c: tuple[int, int]) -> bool:
        wide = self.of(x, "reg") if k is None else self.of(x, "memory")
        return wide > 0 and (k is None or k < self.words(x)) and c[0] == wide and c[1] < 1 << wide

    def tie(self, port: Port, x: str) -> bool:
        way, name, high = port
        if name == "clk":
            return x == "clk" and self.kinds.get(x) == ("clk",)
        return 0 < width(high) == (self.width(x) if way == "input" else self.of(x, "wire", "output"))


class Checker:
    def __init__(self, modules: list[Module]) -> None:
        self.modules, self.printed = modules, False
        self.earlier: dict[str, list[tuple[int, Port]]] = {}
        self.prints: dict[str, bool] = {}
        self.placed: set[str] = set()
        self.all_placed = {it[2] for m in modules for _, it in m[3] if it[0] == "instance"}

    def is_printing(self, item: Item) -> bool:
        return item[0] == "always" and any(it[0] == "write" for it in walk(item[1]))

    def outputs(self, item: Item) -> list[str]:
        ports = {name: way for _, (way, name, _) in reversed(self.earlier.get(item[2], []))}
        return [x for port, x in item[3] if ports.get(port) == "output"]

    def driven(self, item: Item) -> list[str]:
        return [item[1]] if item[0] == "assign" else self.outputs(item) if item[0] == "instance" else []

    def written(self, item: Item) -> set[str]:
        return {it[1] for it in walk(item[1]) if it[0] in ("set", "store")} if item[0] == "always" else set()

    def ports_of(self, name: str) -> list[Port]:
        return [it for _, it in self.earlier.get(name, [])]

    def head(self, m: Module) -> bool:
        _, name, ports, items = m
        has_clk = any(p[1] == "clk" for _, p in ports)
        clocked = any(
            it[0] == "always" or (it[0] == "instance" and any(p[1] == "clk" for p in self.ports_of(it[2])))
            for _, it in items
        )
        prints = any(self.is_printing(it) for _, it in items)
        return (
            name not in self.earlier
            and name != "clk"
            and (not clocked or has_clk)
            and (not prints or name == "top" or name in self.all_placed)
        )

    def check(self) -> None:
        faults: list[int] = []
        for m in self.modules:
            self.module(m, faults)
            if faults:
                raise NotNet(min(faults))

    def module(self, m: Module, faults: list[int]) -> None:
        offset, name, ports, items = m
        if not self.head(m):
            faults.append(offset)
        scope = Scope(m)
        driven = [x for _, it in items for x in self.driven(it)]
        written = {x for _, it in items for x in self.written(it)}
        given = {(x, k) for _, it in items if it[0] == "initial" for x, k, _ in it[1]}
        declared = set()
        for at, (way, x, high) in ports:
            right = (
                x not in declared
                and width(high) > 0
                and (way == "input" or x in driven)
                and (x != "clk" or (way == "input" and width(high) == 1))
            )
            if not right or (name == "top" and not self.wanted(way, x, high, ports)):
                faults.append(at)
            declared.add(x)
        before: dict[str, set[Any]] = {"declared": declared, "driven": set(), "written": set(), "given": set()}
        for at, it in items:
            if not self.item(it, scope, before, driven, written, given):
                faults.append(at)
        prints = any(
            self.is_printing(it) or (it[0] == "instance" and it[2] != "top" and self.prints.get(it[2], False))
            for _, it in items
        )
        if name not in self.earlier:
            self.earlier[name], self.prints[name] = ports, prints

    def wanted(self, way: str, x: str, high: int | None, ports: list[tuple[int, Port]]) -> bool:
        names = {p[1] for _, p in ports}
        if x == "clk" or (x, way, width(high)) == ("done", "output", 1) or (x, way) == ("en", "input"):
            return True
        m = re.fullmatch(r"pref_(0|[1-9][0-9]*)", x)
        return (
            m is not None
            and way == "input"
            and width(high) >= 4
            and int(m[1]) <= len(names)
            and all(f"pref_{k}" in names for k in range(int(m[1])))
        )

    def item(
        self,
        it: Item,
        scope: Scope,
        before: dict[str, set[Any]],
        driven: list[str],
        written: set[str],
        given: set[tuple[str, int | None]],
    ) -> bool:
        right, kind = True, it[0]
        if kind in ("wire", "reg", "memory", "instance"):
            right = it[1] not in before["declared"] and it[1] != "clk"
            before["declared"].add(it[1])
        drives = self.driven(it)
        right = right and len(set(drives)) == len(drives) and not before["driven"] & set(drives)
        right = right and not before["written"] & self.written(it)
        if kind == "initial":
            places = [(x, k) for x, k, _ in it[1]]
            right = right and len(set(places)) == len(places) and not before["given"] & set(places)
            before["given"] |= set(places)
        before["driven"] |= set(drives)
        before["written"] |= self.written(it)
        prints = self.is_printing(it)
        right = right and not (prints and self.printed)
        self.printed = self.printed or prints
        if kind == "instance":
            right = right and not (it[2] != "top" and self.prints.get(it[2], False) and it[2] in self.placed)
            self.placed.add(it[2])
        return right and self.inside(it, scope, driven, written, given)

    def inside(
        self, it: Item, scope: Scope, driven: list[str], written: set[str], given: set[tuple[str, int | None]]
    ) -> bool:
        kind = it[0]
        if kind == "wire":
            return width(it[2]) > 0 and it[1] in driven
        if kind == "reg":
            return width(it[2]) > 0 and it[1] in written and (it[1], None) in given
        if kind == "memory":
            return width(it[2]) > 0 and it[3] <= len(given) and all((it[1], k) in given for k in range(it[3] + 1))
        if kind == "assign":
            wide = scope.of(it[1], "wire", "output")
            return wide > 0 and scope.value(it[2], wide)
        if kind == "initial":
            return all(scope.initial(*x) for x in it[1])
        if kind == "always":
            return all(map(scope.statement, it[1]))
        if it[2] not in self.earlier:
            return False
        ports, ties = self.ports_of(it[2]), it[3]
        by_name = {p[1]: p for p in reversed(ports)}
        named = [port for port, _ in ties]
        return (
            all(port in by_name and scope.tie(by_name[port], x) for port, x in ties)
            and len(set(named)) == len(named)
            and set(by_name) <= set(named)
        )


def fault(text: str) -> int | None:
    """The offset at which the text is no net that a simulator runs, or None. The text has one character a byte."""
    try:
        modules = Parser(text).net()
        Checker(modules).check()
    except NotNet as why:
        return why.offset
    tops = [m for m in modules if m[1] == "top"]
    if not tops:
        return len(text)
    names = {p[1] for _, p in tops[0][2]}
    return None if {"clk", "done"} <= names else tops[0][0]
