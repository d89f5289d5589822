"""The steps of a C program by the words of docs/USING.md, C99 and POSIX, without the compiler: what each takes, where
it stands in the text, and why one is blocked or undefined. A thread is a generator that takes one step each time it is
resumed; what takes no step happens on the way to the next one."""
from __future__ import annotations

import random
import re
from collections.abc import Generator
from dataclasses import dataclass, field
from typing import Optional, Union

import c_texts as c
from c_rules import CONVERSIONS, Definition, Header, Library, Pointed, Program, Thing, Undefined, binary, unary
from c_texts import INT, LONG, Integer

MOST_WAITING = 2**31 - 1
# so many turns on end in which nothing moves are a deadlock
MOST_IDLE = 3000
# Behind a step None stands; a thread that cannot go on tells why.
Steps = Generator[Optional[str], None, None]
Truth = Generator[Optional[str], None, bool]
Signal = Generator[Optional[str], None, Union[str, "Returned", None]]
# What cuts of an expression kept, by the node: a call may give no value.
Kept = dict[int, Optional[int]]


@dataclass
class Returned:
    """What a call returns, if anything."""

    value: int | None


class Fault(Exception):
    """A step that is undefined: its place and its cause."""

    def __init__(self, at: int, cause: str) -> None:
        super().__init__(at, cause)
        self.at, self.cause = at, cause


@dataclass
class Mutex:
    state: str
    owner: int = -1


@dataclass
class Barrier:
    count: int = 0
    waiters: set[int] = field(default_factory=set)


def type_of(e: c.Expression) -> Integer:
    if isinstance(e, c.Constant):
        assert e.value
        return e.value[1]
    if isinstance(e, c.Place):
        return LONG if isinstance(e.meaning, Pointed) else e.meaning.type
    if isinstance(e, c.Call):
        base = e.meaning.returns[0]
        return base if isinstance(base, Integer) else INT
    return e.type


def is_cut(e: c.Expression) -> bool:
    """Whether it is evaluated before the step of the expression that it stands in."""
    return isinstance(e, (c.Call, c.Choice)) or (isinstance(e, c.Binary) and e.operator in ("&&", "||"))


class Frame:
    """A call: the values of its locals' elements, None where one is not written."""

    def __init__(self) -> None:
        self.locals: dict[int, list[int | None]] = {}


class Machine:
    """The state of a program. Thread 0 is main, and the elements of the pthread_t objects follow."""

    def __init__(self, program: Program) -> None:
        self.program = program
        self.globals = {id(it): list(it.initial) for it in program.globals}
        self.threads: list[Steps | None] = [None] * program.threads()
        # `unused`, `running` or `finished`
        self.states = ["unused"] * program.threads()
        initial = [thing.initialised for thing in program.of("mutex") for _ in range(thing.elements())]
        self.mutexes = [Mutex("free" if it else "none") for it in initial]
        self.barriers: list[Barrier | None] = [None] * program.count("barrier")
        self.output: list[str] = []
        self.begin(0, program.main, [])

    def begin(self, thread: int, definition: Definition, arguments: list[int]) -> None:
        self.states[thread] = "running"
        self.threads[thread] = Thread(self, thread).outermost(definition, arguments)

    def ended(self) -> bool:
        return self.states[0] == "finished"

    def step(self, thread: int) -> str | None:
        """One step of a thread; why there is none, where it is blocked."""
        if thread >= len(self.threads) or self.states[thread] != "running":
            return "not running"
        if any(it and thread in it.waiters for it in self.barriers):
            return "barrier"
        steps = self.threads[thread]
        assert steps
        return next(steps)

    def walk(self, turns: list[tuple[int, int]]) -> tuple[int, str]:
        """The status and the line of a walk along so many steps of each thread in turn."""
        taken = 0
        for thread, count in turns:
            for _ in range(count):
                if self.ended():
                    return 0, f"hls: ended, {taken} steps\n"
                try:
                    blocked = self.step(thread)
                except Fault as fault:
                    return 10, f"hls: undefined at step {taken}, byte {fault.at}: {fault.cause}\n"
                if blocked:
                    return 10, f"hls: blocked at step {taken}, thread {thread}: {blocked}\n"
                taken += 1
        return (0, f"hls: ended, {taken} steps\n") if self.ended() else (10, f"hls: listed, {taken} steps\n")


class Thread:
    """One thread, and its innermost call."""

    def __init__(self, machine: Machine, number: int) -> None:
        self.machine, self.number = machine, number
        self.frame = Frame()
        self.depth = 0

    def outermost(self, definition: Definition, arguments: list[int]) -> Steps:
        yield from self.function(definition, arguments)

    def function(self, definition: Definition, arguments: list[int]) -> Generator[str | None, None, int | None]:
        """A call from its first step to its return: what it returns, converted to its type."""
        outer, self.frame = self.frame, Frame()
        self.depth += 1
        for local in definition.locals:
            self.frame.locals[id(local)] = [None] * local.elements()
        for parameter, value in zip(definition.parameters, arguments):
            self.frame.locals[id(parameter)] = [parameter.type.wrap(value)]
        assert definition.tree.body
        signal = None
        for item in definition.tree.body.items:
            signal = yield from self.item(item)
            if signal is not None:
                break
        if signal is None:
            # the closing brace returns nothing
            yield from self.leave(definition.tree.body.close)
            signal = Returned(None)
        assert isinstance(signal, Returned)
        self.frame = outer
        self.depth -= 1
        value = signal.value
        return definition.returns.wrap(value) if definition.returns and value is not None else None

    def leave(self, at: int) -> Steps:
        """The step of a return, whose value is evaluated already; the outermost one ends the thread."""
        if self.depth == 1:
            if self.number == 0 and any(it != "unused" for it in self.machine.states[1:]):
                raise Fault(at, "live thread")
            self.machine.states[self.number] = "finished"
        yield None

    # ---- statements

    def item(self, item: c.Declaration | c.Statement) -> Signal:
        if isinstance(item, c.Declaration):
            yield from self.declaration(item)
            return None
        return (yield from self.statement(item))

    def declaration(self, declaration: c.Declaration) -> Steps:
        for declarator in declaration.declarators:
            variable, at = declarator.variable, declarator.at
            if declarator.initial is None:
                self.frame.locals[id(variable)] = [None] * variable.elements()
                yield None
                continue
            assert not isinstance(declarator.initial, (c.Braces, c.MutexInitial))
            kept: Kept = {}
            yield from self.cuts(declarator.initial, kept, at)
            value = self.evaluated(declarator.initial, kept, at)
            self.frame.locals[id(variable)][0] = variable.type.wrap(value)
            yield None

    def statement(self, tree: c.Statement) -> Signal:
        if isinstance(tree, c.Block):
            for item in tree.items:
                signal = yield from self.item(item)
                if signal is not None:
                    return signal
        elif isinstance(tree, (c.Assign, c.Step, c.CallStatement)):
            return (yield from self.simple(tree))
        elif isinstance(tree, c.Jump):
            return tree.word
        elif isinstance(tree, c.If):
            if (yield from self.condition(tree.condition)):
                return (yield from self.statement(tree.consequent))
            if tree.alternative is not None:
                return (yield from self.statement(tree.alternative))
        elif isinstance(tree, c.While):
            return (yield from self.loop(tree.condition, tree.body, None, True))
        elif isinstance(tree, c.DoWhile):
            return (yield from self.loop(tree.condition, tree.body, None, False))
        elif isinstance(tree, c.For):
            if isinstance(tree.first, c.Declaration):
                yield from self.declaration(tree.first)
            elif tree.first is not None:
                signal = yield from self.simple(tree.first)
                if signal is not None:
                    return signal
            condition = tree.condition or c.Constant(0, (1, INT), 0)
            return (yield from self.loop(condition, tree.body, tree.last, True))
        elif isinstance(tree, c.Switch):
            return (yield from self.switch(tree))
        elif isinstance(tree, c.Return):
            return (yield from self.returned(tree))
        return None

    def loop(self, condition: c.Expression, body: c.Statement, last: c.Simple | None, asks: bool) -> Signal:
        """A loop that asks first, or has its first turn unasked."""
        while True:
            if asks and not (yield from self.condition(condition)):
                return None
            asks = True
            signal = yield from self.statement(body)
            if signal == "break":
                return None
            if isinstance(signal, Returned):
                return signal
            if last is not None:
                signal = yield from self.simple(last)
                if signal is not None:
                    return signal

    def switch(self, tree: c.Switch) -> Signal:
        """One step goes to the label of the value, else to default, else past the switch (6.8.4.2)."""
        kept: Kept = {}
        yield from self.cuts(tree.operand, kept, tree.at)
        value = tree.type.wrap(self.evaluated(tree.operand, kept, tree.at))
        yield None
        labels = {it.number: at for at, it in enumerate(tree.body) if isinstance(it, c.Label)}
        # the number of default is None
        for item in tree.body[labels.get(value, labels.get(None, len(tree.body))) :]:
            if not isinstance(item, c.Label):
                signal = yield from self.statement(item)
                if signal is not None:
                    return None if signal == "break" else signal
        return None

    def returned(self, tree: c.Return | c.CallStatement) -> Signal:
        """A return, or a pthread_exit."""
        given = tree.value if isinstance(tree, c.Return) else tree.call.arguments[0]
        operand = given.operand if isinstance(given, c.Pointer) else given
        assert not isinstance(operand, (c.Text, c.Address))
        value, kept = None, {}
        if operand is not None:
            yield from self.cuts(operand, kept, tree.at)
            value = self.evaluated(operand, kept, tree.at)
        yield from self.leave(tree.at)
        return Returned(value)

    def simple(self, tree: c.Simple) -> Signal:
        if isinstance(tree, c.CallStatement):
            return (yield from self.call_statement(tree))
        kept: Kept = {}
        if isinstance(tree, c.Assign):
            yield from self.cuts(tree.right, kept, tree.at)
        for index in tree.place.indices:
            yield from self.cuts(index, kept, tree.at)
        try:
            self.assign(tree, kept)
        except Undefined as why:
            raise Fault(tree.at, str(why)) from why
        yield None
        return None

    def assign(self, tree: c.Assign | c.Step, kept: Kept) -> None:
        """The right side, then the index, then the old value where the operator needs it."""
        right, kind = (self.value(tree.right, kept), type_of(tree.right)) if isinstance(tree, c.Assign) else (1, INT)
        variable = tree.place.meaning
        elements, number = self.element(tree.place, kept)
        if tree.operator != "=":
            operator = tree.operator[:1] if isinstance(tree, c.Step) else tree.operator[:-1]
            old = elements[number]
            if old is None:
                raise Undefined("unwritten")
            right = binary(operator, variable.type, old, kind, right)
        elements[number] = variable.type.wrap(right)

    # ---- conditions and cuts

    def condition(self, e: c.Expression) -> Truth:
        """Each operand that is evaluated takes a step (6.5.13, 6.5.14)."""
        if isinstance(e, c.Unary) and e.operator == "!":
            return not (yield from self.condition(e.operand))
        if isinstance(e, c.Binary) and e.operator in ("&&", "||"):
            truth = yield from self.condition(e.left)
            return truth if truth == (e.operator == "||") else (yield from self.condition(e.right))
        kept: Kept = {}
        yield from self.cuts(e, kept, e.at)
        value = self.evaluated(e, kept, e.at)
        yield None
        return value != 0

    def cuts(self, e: c.Expression, kept: Kept, at: int) -> Steps:
        """Evaluates the outermost cuts of an expression from left to right; a call is entered at the place."""
        if isinstance(e, c.Place):
            for index in e.indices:
                yield from self.cuts(index, kept, at)
        elif isinstance(e, (c.Unary, c.Cast)):
            yield from self.cuts(e.operand, kept, at)
        elif isinstance(e, c.Binary) and not is_cut(e):
            yield from self.cuts(e.left, kept, at)
            yield from self.cuts(e.right, kept, at)
        elif isinstance(e, c.Binary):
            kept[id(e)] = int((yield from self.condition(e)))
        elif isinstance(e, c.Choice):
            chosen = e.first if (yield from self.condition(e.condition)) else e.second
            inner: Kept = {}
            yield from self.cuts(chosen, inner, chosen.at)
            kept[id(e)] = e.type.wrap(self.evaluated(chosen, inner, chosen.at))
            yield None
        elif isinstance(e, c.Call):
            kept[id(e)] = yield from self.called(e, at)

    def called(self, call: c.Call, at: int) -> Generator[str | None, None, int | None]:
        """All arguments are evaluated in the step that enters the function."""
        inner: Kept = {}
        arguments = [it for it in call.arguments if not isinstance(it, (c.Text, c.Address, c.Pointer))]
        for argument in arguments:
            yield from self.cuts(argument, inner, at)
        values = [self.evaluated(argument, inner, at) for argument in arguments]
        header = call.meaning
        assert isinstance(header, Header) and header.definition
        yield None
        return (yield from self.function(header.definition, values))

    # ---- values, within a step

    def evaluated(self, e: c.Expression, kept: Kept, at: int) -> int:
        try:
            return self.value(e, kept)
        except Undefined as why:
            raise Fault(at, str(why)) from why

    def element(self, place: c.Place, kept: Kept) -> tuple[list[int | None], int]:
        """The elements of an object, and the number of the one that is meant. Each index is tested against its own
        length before the next is evaluated."""
        number = 0
        for index, length in zip(place.indices, place.meaning.lengths):
            number = number * length + self.index(index, length, kept)
        if place.meaning.is_global:
            return self.machine.globals[id(place.meaning)], number
        return self.frame.locals[id(place.meaning)], number

    def index(self, e: c.Expression, length: int, kept: Kept) -> int:
        index = self.value(e, kept)
        if not 0 <= index < length:
            raise Undefined("index")
        return index

    def value(self, e: c.Expression, kept: Kept) -> int:
        if isinstance(e, c.Constant):
            assert e.value
            return e.value[0]
        if is_cut(e):
            value = kept[id(e)]
            if value is None:
                raise Undefined("no value")
            return value
        if isinstance(e, c.Place):
            if isinstance(e.meaning, Pointed):
                elements, number = self.frame.locals[id(e.meaning.variable)], 0
            else:
                elements, number = self.element(e, kept)
            found = elements[number]
            if found is None:
                raise Undefined("unwritten")
            return found
        if isinstance(e, c.Cast):
            return e.type.wrap(self.value(e.operand, kept))
        if isinstance(e, c.Unary):
            kind = type_of(e.operand).promoted()
            return unary(e.operator, kind, kind.wrap(self.value(e.operand, kept)))
        assert isinstance(e, c.Binary)
        left = self.value(e.left, kept)
        right = self.value(e.right, kept)
        return binary(e.operator, type_of(e.left), left, type_of(e.right), right)

    # ---- calls as statements

    def call_statement(self, tree: c.CallStatement) -> Signal:
        call, at = tree.call, tree.at
        if not isinstance(call.meaning, Library):
            yield from self.called(call, at)
        elif call.meaning.name == "printf":
            yield from self.printed(call, at)
        elif call.meaning.name == "pthread_exit":
            return (yield from self.returned(tree))
        else:
            yield from self.thread_call(call.meaning.name, call.arguments, at)
        return None

    def printed(self, call: c.Call, at: int) -> Steps:
        """The arguments, and then the act."""
        first, *arguments = call.arguments
        assert isinstance(first, c.Text)
        kept: Kept = {}
        expressions = [it for it in arguments if not isinstance(it, (c.Text, c.Address, c.Pointer))]
        for e in expressions:
            yield from self.cuts(e, kept, at)
        values = [self.evaluated(e, kept, at) for e in expressions]
        yield None
        left = iter(values)

        def piece(found: re.Match[str]) -> str:
            if found[0][0] == "\\":
                return {"n": "\n", "t": "\t"}.get(found[0][1], found[0][1])
            return "%" if found[0] == "%%" else str(CONVERSIONS[found[0]].wrap(next(left)))

        self.machine.output.append(re.sub(r"\\.|%(?:%|l{0,2}[du])", piece, first.text))
        yield None

    def thing(self, argument: c.Argument, kept: Kept) -> int:
        """The number of an object among those of its kind."""
        place = argument.place if isinstance(argument, c.Address) else argument
        assert isinstance(place, c.Place) and isinstance(place.meaning, Thing)
        number = place.meaning.first
        for index, length in zip(place.indices, place.meaning.lengths):
            number += self.index(index, length, kept)
        return number

    def thread_call(self, name: str, arguments: list[c.Argument], at: int) -> Steps:
        """The object's index and the value in one step, the act in the next."""
        place = arguments[0].place if isinstance(arguments[0], c.Address) else arguments[0]
        assert isinstance(place, c.Place)
        last = arguments[-1] if name in ("pthread_create", "pthread_barrier_init") else None
        e = last.operand if isinstance(last, c.Pointer) else last
        assert not isinstance(e, (c.Text, c.Address))
        kept: Kept = {}
        for index in place.indices:
            yield from self.cuts(index, kept, at)
        if e is not None:
            yield from self.cuts(e, kept, at)
        try:
            number = self.thing(arguments[0], kept)
            value = self.value(e, kept) if e is not None else 0
        except Undefined as why:
            raise Fault(at, str(why)) from why
        yield None
        # an act that is blocked is tried again
        while True:
            try:
                if name == "pthread_create":
                    self.create(number + 1, arguments[2], value)
                    blocked = None
                elif name == "pthread_join":
                    blocked = self.join(number + 1)
                elif "mutex" in name:
                    blocked = self.on_mutex(name, self.machine.mutexes[number])
                else:
                    blocked = self.on_barrier(name, number, value)
            except Undefined as why:
                raise Fault(at, str(why)) from why
            if not blocked:
                break
            yield blocked
        yield None

    def create(self, thread: int, routine: c.Argument, value: int) -> None:
        if self.machine.states[thread] != "unused":
            raise Undefined("thread id")
        assert isinstance(routine, c.Place) and routine.meaning.definition
        self.machine.begin(thread, routine.meaning.definition, [value])

    def join(self, thread: int) -> str | None:
        if self.machine.states[thread] == "unused" or thread == self.number:
            raise Undefined("thread id")
        if self.machine.states[thread] == "running":
            return "join"
        self.machine.states[thread] = "unused"
        return None

    def on_mutex(self, name: str, mutex: Mutex) -> str | None:
        """Only an initialised one is locked, by who does not own it; only its owner unlocks it; a held one is not
        destroyed."""
        if name == "pthread_mutex_init":
            is_fine, state = mutex.state == "none", "free"
        elif name == "pthread_mutex_destroy":
            is_fine, state = mutex.state == "free", "none"
        elif name == "pthread_mutex_unlock":
            is_fine, state = mutex.state == "held" and mutex.owner == self.number, "free"
        else:
            is_fine, state = mutex.state == "free" or (mutex.state == "held" and mutex.owner != self.number), "held"
            if is_fine and mutex.state == "held":
                return "mutex"
        if not is_fine:
            raise Undefined("mutex")
        mutex.state, mutex.owner = state, self.number
        return None

    def on_barrier(self, name: str, number: int, value: int) -> str | None:
        barrier = self.machine.barriers[number]
        if name == "pthread_barrier_init":
            if barrier or not 1 <= value <= MOST_WAITING:
                raise Undefined("barrier")
            self.machine.barriers[number] = Barrier(value)
        elif barrier is None or (name == "pthread_barrier_destroy" and barrier.waiters):
            raise Undefined("barrier")
        elif name == "pthread_barrier_destroy":
            self.machine.barriers[number] = None
        else:
            barrier.waiters.add(self.number)
            if len(barrier.waiters) == barrier.count:
                barrier.waiters.clear()
        return None


Walk = tuple[int, str, str]


def walked(program: Program, turns: list[tuple[int, int]]) -> Walk:
    """The status of a walk, what it prints, and its line."""
    machine = Machine(program)
    status, line = machine.walk(turns)
    return status, "".join(machine.output), line


def walked_at_random(
    program: Program, draw: random.Random, most: int, blocked_at: float = 0.0
) -> tuple[list[tuple[int, int]], Walk]:
    """A walk whose turns are drawn: to the end of the program, to a step that is undefined, to so many steps, or to one
    of the steps that are blocked, at each with this chance."""
    machine = Machine(program)
    turns: list[tuple[int, int]] = []
    taken = idle = 0

    def ends(status: int, line: str) -> tuple[list[tuple[int, int]], Walk]:
        return turns, (status, "".join(machine.output), f"hls: {line}\n")

    while taken < most and idle < MOST_IDLE:
        thread = draw.randrange(program.threads())
        idle += 1
        for _ in range(draw.randrange(1, 30)):
            try:
                blocked = machine.step(thread)
            except Fault as fault:
                turns.append((thread, 1))
                return ends(10, f"undefined at step {taken}, byte {fault.at}: {fault.cause}")
            if blocked and draw.random() < blocked_at:
                turns.append((thread, 1))
                return ends(10, f"blocked at step {taken}, thread {thread}: {blocked}")
            if blocked:
                break
            taken, idle = taken + 1, 0
            turns.append((thread, 1))
            if machine.ended():
                return ends(0, f"ended, {taken} steps")
            if taken == most:
                break
    return ends(10, f"listed, {taken} steps")


def joined(turns: list[tuple[int, int]]) -> str:
    """A list for `hls walk`."""
    items: list[list[int]] = []
    for thread, count in turns:
        if items and items[-1][0] == thread:
            items[-1][1] += count
        else:
            items.append([thread, count])
    return ",".join(f"{thread}*{count}" for thread, count in items)
