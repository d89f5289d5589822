"""The lines of `hls report`, read. docs/REPORT.md has their form.

What is proved is the text of the report. That it is read and drawn rightly is not."""
from __future__ import annotations

import re
from dataclasses import dataclass, field
from typing import Any, Iterator, NamedTuple

OPERATORS = (
    "plus minus complement not multiply divide remainder add subtract shift_left shift_right less greater less_equal "
    "greater_equal equal not_equal and exclusive_or inclusive_or"
).split()
ACCESSES = ("read_global", "write_global", "read_array", "write_array")
OPERANDS = ("operand", "left", "right", "index", "stored")
UNITS = ("multiplier", "signed_divider", "unsigned_divider")
ACTS = (
    "create",
    "join",
    "mutex_init",
    "mutex_destroy",
    "mutex_lock",
    "mutex_unlock",
    "barrier_init",
    "barrier_destroy",
    "barrier_wait",
    "return",
)
# What stands behind each keyword.
FORMS = {
    "global": "number number number sign name",
    "asks": "number name",
    "function": "name",
    "registers": "number",
    "argument": "number",
    "variable": "number number sign name",
    "array": "number number number sign",
    "block": "number number number",
    "act": "number number",
    "operation": "number what",
    "works": "number number",
    "register": "number",
    "final": "number operand",
    "jump": "number",
    "branch": "number number",
    "test": "operand",
    "print": "number",
    "handed": "operand",
    "module": "name",
    "flipflops": "number name",
    "memory": "number number name",
    "write": "number text",
    "instance": "name name",
    "core": "number name",
    **dict.fromkeys(OPERANDS, "operand"),
    **dict.fromkeys(UNITS, "number number"),
    **dict.fromkeys(ACTS, ""),
}


class Misread(Exception):
    """A line that no report has there."""


class Operand(NamedTuple):
    """`constant` and its value, `variable` and its number, or `value` and the operation that gives it."""

    kind: str
    number: int


@dataclass
class Operation:
    """An operation of a block: an operator, or an access of a global or an array of so many words; the state in which
    it starts, and in how many it works."""

    what: str
    accessed: int = 0
    words: int = 0
    operands: dict[str, Operand] = field(default_factory=dict)
    start: int = 0
    latency: int = 1
    unit: str = ""
    register: int | None = None


@dataclass
class Stage:
    """A basic block, or an act with its name, and the stages that it leads to."""

    number: int
    act: str = ""
    states: int = 1
    steps: int = 0
    operations: list[Operation] = field(default_factory=list)
    finals: dict[int, Operand] = field(default_factory=dict)
    handed: list[Operand] = field(default_factory=list)
    site: int | None = None
    test: Operand | None = None
    next: list[int] = field(default_factory=list)


class Variable(NamedTuple):
    """A scalar variable of a thread; without a name where no C local is it."""

    width: int
    sign: str
    name: str


class Array(NamedTuple):
    """A local array."""

    words: int
    width: int
    sign: str


@dataclass
class Function:
    """A thread function."""

    name: str
    registers: int = 0
    argument: int | None = None
    variables: list[Variable] = field(default_factory=list)
    arrays: list[Array] = field(default_factory=list)
    stages: list[Stage] = field(default_factory=list)


@dataclass
class Global:
    """A global, and the thread functions that ask for its words."""

    name: str
    words: int
    width: int
    sign: str
    asked_by: list[str] = field(default_factory=list)


class Memory(NamedTuple):
    """A memory of a module."""

    words: int
    width: int
    name: str


@dataclass
class Module:
    """A module of the Verilog text: its registers as widths and names, and its instances as names and modules."""

    name: str
    flipflops: list[tuple[int, str]] = field(default_factory=list)
    memories: list[Memory] = field(default_factory=list)
    writes: dict[int, str] = field(default_factory=dict)
    instances: list[tuple[str, str]] = field(default_factory=list)


@dataclass
class Report:
    """A whole report; core k is served by arbiter k."""

    globals: list[Global] = field(default_factory=list)
    functions: list[Function] = field(default_factory=list)
    modules: list[Module] = field(default_factory=list)
    cores: list[str] = field(default_factory=list)

    def module(self, name: str) -> Module:
        """A module, empty where there is none of that name."""
        return next((it for it in self.modules if it.name == name), Module(name))

    def threads(self) -> list[tuple[str, str]]:
        """The instances of threads in `top`, and their modules."""
        return [it for it in self.module("top").instances if re.fullmatch(r"t_\d+", it[0])]

    def banks(self, name: str) -> list[Memory]:
        """The banks of a global, the first one first."""
        found = (self.module(f"bank_{name}_{k}").memories for k in range(len(self.modules)))
        return [memory for memories in found for memory in memories]


# ---- reading


def whole(word: str) -> int:
    """A number without sign; of a constant it may have one."""
    if not re.fullmatch(r"\d+", word, re.ASCII):
        raise ValueError(word)
    return int(word)


def sign(word: str) -> str:
    if word not in ("signed", "unsigned"):
        raise ValueError(word)
    return word


def operand(words: list[str]) -> Operand:
    """An operand, behind which its type and the types that it is converted to stand."""
    kind, number, *types = words
    if kind not in ("constant", "variable", "value") or not types or len(types) % 2:
        raise ValueError(kind)
    for width, signed in zip(types[::2], types[1::2]):
        whole(width), sign(signed)
    return Operand(kind, int(number) if kind == "constant" else whole(number))


def operation(words: list[str]) -> Operation:
    """An operator and the type in which it works, or an access, its object and how many words that has."""
    what, first, second = words
    if what in ACCESSES:
        return Operation(what, whole(first), whole(second))
    if what not in OPERATORS or not whole(first) or not sign(second):
        raise ValueError(what)
    return Operation(what)


def parsed(form: str, words: list[str]) -> Iterator[Any]:
    """The words behind a keyword, as its form has them."""
    left = list(words)
    for kind in form.split():
        if kind in ("operand", "what", "text"):
            yield operand(left) if kind == "operand" else operation(left) if kind == "what" else " ".join(left)
            left = []
            continue
        word = left.pop(0)
        if not word:
            raise ValueError(word)
        yield whole(word) if kind == "number" else sign(word) if kind == "sign" else word
    if left:
        raise ValueError(left[0])


def numbered(held: list[Any], number: int, made: Any) -> None:
    """Appends what has the next number."""
    if number != len(held):
        raise ValueError(number)
    held.append(made)


class Reader:
    """Reads a report line by line; what a line speaks of is the last one of its kind."""

    def __init__(self) -> None:
        self.report = Report()

    @property
    def function(self) -> Function:
        return self.report.functions[-1]

    @property
    def stage(self) -> Stage:
        return self.function.stages[-1]

    @property
    def operation(self) -> Operation:
        return self.stage.operations[-1]

    @property
    def module(self) -> Module:
        return self.report.modules[-1]

    def line(self, line: str) -> None:
        keyword, *words = line.split(" ")
        try:
            given = list(parsed(FORMS[keyword], words))
            if keyword in OPERANDS:
                self.operation.operands[keyword] = given[0]
            elif keyword in UNITS:
                self.operation.unit = f"{keyword.replace('_', ' ')} {given[0]} of {given[1]} bits"
            elif keyword in ACTS or keyword == "print":
                self.on_asked(keyword, *given)
            else:
                getattr(self, f"on_{keyword}")(*given)
        except (IndexError, KeyError, ValueError) as fault:
            raise Misread(f"not a line of a report: {line!r}") from fault

    def on_global(self, number: int, words: int, width: int, sign_word: str, name: str) -> None:
        numbered(self.report.globals, number, Global(name, words, width, sign_word))

    def on_asks(self, number: int, function: str) -> None:
        self.report.globals[number].asked_by.append(function)

    def on_function(self, name: str) -> None:
        self.report.functions.append(Function(name))

    def on_registers(self, count: int) -> None:
        self.function.registers = count

    def on_argument(self, variable: int) -> None:
        self.function.argument = variable

    def on_variable(self, number: int, width: int, sign_word: str, name: str) -> None:
        numbered(self.function.variables, number, Variable(width, sign_word, "" if name == "-" else name))

    def on_array(self, number: int, words: int, width: int, sign_word: str) -> None:
        numbered(self.function.arrays, number, Array(words, width, sign_word))

    def on_block(self, number: int, states: int, steps: int) -> None:
        numbered(self.function.stages, number, Stage(number, states=states, steps=steps))

    def on_act(self, number: int, leads: int) -> None:
        numbered(self.function.stages, number, Stage(number, act="?", next=[leads]))

    def on_asked(self, what: str, site: int | None = None) -> None:
        if self.stage.act != "?":
            raise ValueError(what)
        self.stage.act, self.stage.site = what, site
        if what == "return":
            self.stage.next = []

    def on_operation(self, number: int, made: Operation) -> None:
        numbered(self.stage.operations, number, made)

    def on_works(self, start: int, latency: int) -> None:
        self.operation.start, self.operation.latency = start, latency

    def on_register(self, number: int) -> None:
        self.operation.register = number

    def on_final(self, variable: int, held: Operand) -> None:
        self.stage.finals[variable] = held

    def on_jump(self, stage: int) -> None:
        self.stage.next = [stage]

    def on_branch(self, nonzero: int, zero: int) -> None:
        self.stage.next = [nonzero, zero]

    def on_test(self, held: Operand) -> None:
        self.stage.test = held

    def on_handed(self, held: Operand) -> None:
        self.stage.handed.append(held)

    def on_module(self, name: str) -> None:
        self.report.modules.append(Module(name))

    def on_flipflops(self, width: int, name: str) -> None:
        self.module.flipflops.append((width, name))

    def on_memory(self, words: int, width: int, name: str) -> None:
        self.module.memories.append(Memory(words, width, name))

    def on_write(self, number: int, text: str) -> None:
        self.module.writes[number] = text

    def on_instance(self, name: str, module: str) -> None:
        self.module.instances.append((name, module))

    def on_core(self, number: int, name: str) -> None:
        numbered(self.report.cores, number, name)


def missing(report: Report, function: Function, stage: Stage) -> Iterator[str]:
    """What a stage speaks of and the report does not have."""
    held = [it for made in stage.operations for it in made.operands.values()]
    for it in [*held, *stage.finals.values(), *stage.handed, *([stage.test] if stage.test else [])]:
        if it.kind == "variable" and it.number >= len(function.variables):
            yield f"variable {it.number}"
        if it.kind == "value" and it.number >= len(stage.operations):
            yield f"value {it.number}"
    yield from (f"variable {it}" for it in stage.finals if it >= len(function.variables))
    yield from (f"stage {it}" for it in stage.next if it > len(function.stages))
    for made in stage.operations:
        objects = len(report.globals) if made.what.endswith("global") else len(function.arrays)
        if made.what in ACCESSES and made.accessed >= objects:
            yield f"object {made.accessed}"


def checked(report: Report) -> Report:
    """A report all of whose parts are there."""
    names = {it.name for it in report.functions}
    for held in report.globals:
        for name in held.asked_by:
            if name not in names:
                raise Misread(f"no function {name} is told, which asks for {held.name}")
    for function in report.functions:
        for stage in function.stages:
            for what in missing(report, function, stage):
                raise Misread(f"stage {stage.number} of {function.name} speaks of {what}, which is not told")
            if stage.act == "?" or not stage.act and not stage.next:
                raise Misread(f"stage {stage.number} of {function.name} breaks off")
    return report


def read(text: str) -> Report:
    """The report that a text is; Misread where it is none."""
    reader = Reader()
    *lines, rest = text.split("\n")
    for line in lines:
        reader.line(line)
    if rest or not lines:
        raise Misread(f"a report that breaks off: {rest!r}")
    return checked(reader.report)
