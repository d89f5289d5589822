"""Small random programs with threads and mutexes, each from a seed: their text, their interleavings, and whether they
keep the lock discipline that docs/USING.md describes. A program is drawn as a tree of statements; what is said of its
interleavings comes from running that tree by the words of C99 and POSIX, and what is said of its discipline from going
through it by the words of docs/USING.md."""
from __future__ import annotations

import random
from collections import deque
from collections.abc import Callable, Iterable, Iterator
from dataclasses import dataclass, field
from typing import Union


@dataclass
class Use:
    """A global where it is named, and the byte at which its name stands."""

    name: str
    place: int = -1


# What is written: a global, or a local of this name.
Target = Union[Use, str]


@dataclass
class Sum:
    uses: list[Use]
    locals: list[str]
    constant: int


@dataclass
class Set:
    target: Target
    value: Sum
    adds: bool


@dataclass
class If:
    test: Sum
    then: list[Statement]
    other: list[Statement]


@dataclass
class Loop:
    counter: str
    times: int
    body: list[Statement]


@dataclass
class Mutex:
    locks: bool
    name: str
    index: int | None = None


@dataclass
class Thread:
    """A create or a join of an object, or of an element of one: by its number, or by a counter."""

    creates: bool
    name: str
    index: int | str | None = None
    place: int = -1


@dataclass
class JoinLoop:
    """Joins each element, so spelled; only some spellings are a join loop."""

    name: str
    counter: str
    head: str
    steps: range
    counts: bool
    place: int = -1


@dataclass
class Call:
    name: str
    target: Target | None = None


@dataclass
class Return:
    value: Sum | None = None


Statement = Union[Set, If, Loop, Mutex, Thread, JoinLoop, Call, Return]

# Heads of loops over the two elements of an object: their texts, what the counter is, and whether it is a join loop.
HEADS = [
    ("for ({k} = 0; {k} < 2; {k}++) ", range(2), True),
    ("for ({k} = 0; {k} < 1 + 1; ++{k}) ", range(2), True),
    ("for ({k} = 1; {k} < 2; {k}++) ", range(1, 2), False),
    ("for ({k} = 0; {k} < 1; {k}++) ", range(1), False),
    ("for ({k} = 0; {k} <= 1; {k}++) ", range(2), False),
]


@dataclass
class Program:
    """Functions by name; the threads' objects with their routines, the mutexes (with their lengths, 0 of a scalar), the
    globals."""

    globals: list[str]
    objects: dict[str, int]
    routines: dict[str, str]
    mutexes: dict[str, int]
    functions: dict[str, list[Statement]] = field(default_factory=dict)
    text: str = ""


# ---- drawing

class Drawing:
    def __init__(self, seed: int) -> None:
        self.draw = random.Random(seed)
        self.counters = 0
        # objects and mutexes, with their lengths, 0 of a scalar
        names = [f"x{i}" for i in range(self.draw.randrange(1, 4))]
        objects = self.draw.choice([{"a": 0}, {"a": 0, "b": 0}, {"t": 2}, {"a": 0, "t": 2}])
        routines = {name: self.draw.choice("fg") for name in objects}
        self.program = Program(names, objects, routines, {"m": 0, "n": 0, "p": 2})
        self.favourite = {name: self.draw.choice("mmn") for name in names}

    def maybe(self, chance: float) -> bool:
        return self.draw.random() < chance

    def sum(self, names: list[str]) -> Sum:
        uses = [Use(self.draw.choice(names))] if names and self.maybe(0.5) else []
        return Sum(uses, [], self.draw.randrange(3))

    def access(self, name: str) -> Statement:
        if self.maybe(0.25):
            return Set("k", Sum([Use(name)], [], 0), False)
        return Set(Use(name), self.sum([name]), self.maybe(0.4))

    def guarded(self, name: str) -> list[Statement]:
        mutex = self.favourite[name] if self.maybe(0.93) else self.draw.choice("mn")
        body = [self.access(name)]
        if self.maybe(0.15):
            return [Mutex(True, "p", 0), *body, Mutex(False, "p", 0)]
        if self.maybe(0.15):
            body = [If(self.sum([name]), body, [self.access(name)] if self.maybe(0.5) else [])]
        if self.maybe(0.1):
            body += [Mutex(False, mutex), Mutex(True, mutex)]
            body += [self.access(name)] if self.maybe(0.5) else []
        if self.maybe(0.12):
            body = [self.loop(body)]
        locked: list[Statement] = [Mutex(True, mutex), *body, Mutex(False, mutex)]
        if self.maybe(0.04):
            locked.pop(self.draw.choice([0, -1]))
        return locked

    def loop(self, body: list[Statement]) -> Statement:
        self.counters += 1
        return Loop(f"i{self.counters}", self.draw.randrange(1, 3), body)

    def part(self, helpers: list[str], plain: float) -> list[Statement]:
        """What a thread does with a global, without its mutex as often as is said."""
        name = self.draw.choice(self.program.globals)
        kind = self.draw.random()
        if kind < plain:
            body = [self.access(name)]
        elif kind < 0.85 or not helpers:
            body = self.guarded(name)
        else:
            body = [self.helped(name, self.draw.choice(helpers))]
        if self.maybe(0.1):
            body = [self.loop(body)]
        if self.maybe(0.1):
            body = [If(self.sum([]), body, [])]
        return body

    def helped(self, name: str, helper: str) -> Statement:
        """A call of a helper; where it returns a number, the global or a local takes it."""
        if helper != "v":
            return Call(helper)
        return Call(helper, Use(name) if self.maybe(0.5) else "k")

    def helper(self, returns: bool) -> list[Statement]:
        name = self.draw.choice(self.program.globals)
        mutex = self.favourite[name]
        bodies: list[list[Statement]] = [
            [self.access(name)],
            self.guarded(name),
            [Mutex(True, mutex)],
            [Mutex(False, mutex)],
            [Set("k", Sum([], [], 1), False)],
        ]
        body = self.draw.choice(bodies)
        if self.maybe(0.3):
            body = [If(self.sum([]), [Return(Sum([], [], 1) if returns else None)], []), *body]
        return [*body, Return(self.sum([]))] if returns else body

    def creates(self, name: str, length: int) -> list[Statement]:
        if not length:
            return [Thread(True, name)]
        self.counters += 1
        counter = f"i{self.counters}"
        if self.maybe(0.7):
            return [Loop(counter, 2, [Thread(True, name, counter)])]
        return [Thread(True, name, 0), Thread(True, name, 1)]

    def joins(self, name: str, length: int) -> list[Statement]:
        if not length:
            return [Thread(False, name)]
        if self.maybe(0.7):
            self.counters += 1
            head, steps, counts = HEADS[0] if self.maybe(0.6) else self.draw.choice(HEADS)
            return [JoinLoop(name, f"i{self.counters}", head, steps, counts)]
        if self.maybe(0.5):
            # main goes on where one of the two is joined
            first = self.draw.randrange(2)
            return [Thread(False, name, first), *self.part([], 0.9), Thread(False, name, 1 - first)]
        return [Thread(False, name, at) for at in range(2) if self.maybe(0.8)]

    def main(self, helpers: list[str]) -> list[Statement]:
        body: list[Statement] = []
        order = list(self.program.objects.items())
        if self.maybe(0.5):
            body += self.part([], 0.7)
        for name, length in order:
            body += self.creates(name, length)
            if self.maybe(0.15):
                body += self.part(helpers, 0.2)
        if self.maybe(0.3):
            body += self.part(helpers, 0.15)
        self.draw.shuffle(order)
        for name, length in order:
            joins = self.joins(name, length)
            if self.maybe(0.06):
                joins = [If(self.sum([]), joins, [])]
            if self.maybe(0.94):
                body += joins
            if self.maybe(0.12):
                body += self.part(helpers, 0.6)
            if self.maybe(0.08) and not length:
                between = self.part(helpers, 0.4) if self.maybe(0.4) else []
                body += [Thread(True, name), *between, Thread(False, name)]
        return body + (self.part(helpers, 0.8) if self.maybe(0.7) else [])

    def routine(self, helpers: list[str]) -> list[Statement]:
        body: list[Statement] = []
        for _ in range(self.draw.randrange(1, 3)):
            body += self.part(helpers, 0.05)
        if self.maybe(0.03):
            name = self.draw.choice(list(self.program.objects))
            body.insert(0, Thread(self.maybe(0.5), name, 0 if self.program.objects[name] else None))
        if self.maybe(0.1):
            body.insert(self.draw.randrange(len(body) + 1), If(self.sum([]), [Return()], []))
        return body

    def drawn(self) -> Program:
        """The program, with its text."""
        functions = self.program.functions
        functions["h"], functions["v"] = self.helper(False), self.helper(True)
        for routine in "fg":
            functions[routine] = self.routine(["h", "v"])
        functions["main"] = self.main(["h", "v"])
        self.program.text = Text(self.program).written()
        return self.program


# ---- the text

def brackets(length: int) -> str:
    """Behind a declared name: the length of an array, nothing of a scalar."""
    return f"[{length}]" if length else ""


def element(name: str, index: int | str | None) -> str:
    return name if index is None else f"{name}[{index}]"


class Text:
    def __init__(self, program: Program) -> None:
        self.program, self.text = program, ""

    def use(self, use: Use) -> None:
        use.place = len(self.text)
        self.text += use.name

    def sum(self, value: Sum) -> None:
        for use in value.uses:
            self.use(use)
            self.text += " + "
        self.text += "".join(f"{name} + " for name in value.locals) + str(value.constant)

    def place(self, target: Target) -> None:
        if isinstance(target, Use):
            self.use(target)
        else:
            self.text += target

    def block(self, body: list[Statement]) -> None:
        self.text += "{ "
        for statement in body:
            self.statement(statement)
            self.text += " "
        self.text += "}"

    def thread(self, it: Thread) -> None:
        it.place = len(self.text)
        named = element(it.name, it.index)
        if it.creates:
            self.text += f"pthread_create(&{named}, NULL, {self.program.routines[it.name]}, NULL);"
        else:
            self.text += f"pthread_join({named}, NULL);"

    def choice(self, it: If) -> None:
        self.text += "if (("
        self.sum(it.test)
        self.text += ") % 2) "
        self.block(it.then)
        if it.other:
            self.text += " else "
            self.block(it.other)

    def statement(self, it: Statement) -> None:
        if isinstance(it, Set):
            self.place(it.target)
            self.text += " += " if it.adds else " = "
            self.sum(it.value)
            self.text += ";"
        elif isinstance(it, If):
            self.choice(it)
        elif isinstance(it, Loop):
            self.text += f"for (int {it.counter} = 0; {it.counter} < {it.times}; {it.counter}++) "
            self.block(it.body)
        elif isinstance(it, Mutex):
            self.text += f"pthread_mutex_{'lock' if it.locks else 'unlock'}(&{element(it.name, it.index)});"
        elif isinstance(it, Thread):
            self.thread(it)
        elif isinstance(it, JoinLoop):
            self.text += f"int {it.counter}; " + it.head.replace("{k}", it.counter)
            it.place = len(self.text)
            self.text += f"pthread_join({it.name}[{it.counter}], NULL);"
        elif isinstance(it, Call):
            if it.target is not None:
                self.place(it.target)
                self.text += " = "
            self.text += f"{it.name}();"
        elif it.value is None:
            self.text += "return;"
        else:
            self.text += "return "
            self.sum(it.value)
            self.text += ";"

    def function(self, head: str, name: str, last: str) -> None:
        self.text += f"{head} {{ int k = 0; "
        for statement in self.program.functions[name]:
            if isinstance(statement, (If, Loop)) and name in "fg":
                self.pointers(statement)
            self.statement(statement)
            self.text += " "
        self.text += f"{last}}}\n"

    def pointers(self, statement: If | Loop) -> None:
        """A routine returns a null pointer."""
        for part in [statement.then, statement.other] if isinstance(statement, If) else [statement.body]:
            for at, inner in enumerate(part):
                if isinstance(inner, Return):
                    part[at] = Return(Sum([], [], 0))

    def written(self) -> str:
        program = self.program
        self.text = "".join(f"int {name};\n" for name in program.globals)
        self.text += "".join(f"pthread_t {name}{brackets(n)};\n" for name, n in program.objects.items())
        self.text += "pthread_mutex_t m = PTHREAD_MUTEX_INITIALIZER;\npthread_mutex_t n = PTHREAD_MUTEX_INITIALIZER;\n"
        self.text += "pthread_mutex_t p[2];\nvoid *f(void *arg);\nvoid *g(void *arg);\n"
        self.function("void h(void)", "h", "")
        self.function("int v(void)", "v", "")
        for routine in "fg":
            self.function(f"void *{routine}(void *arg)", routine, "return NULL; ")
        self.text += "int main(void) { pthread_mutex_init(&p[0], NULL); int k = 0; "
        for statement in program.functions["main"]:
            self.statement(statement)
            self.text += " "
        self.text += "return 0; }\n"
        return self.text


# ---- interleavings

@dataclass
class Assign:
    """A global or a local by its name, which takes a sum, or to which the sum is added."""

    name: str
    value: Sum
    adds: bool


@dataclass
class Test:
    """Goes to a step where the sum is even, else on."""

    value: Sum
    to: int = -1


@dataclass
class Less:
    """Goes to a step where the local is not less than a number, else on."""

    counter: str
    stop: int
    to: int = -1


@dataclass
class Go:
    to: int = -1


@dataclass
class Hold:
    """A lock or an unlock of a mutex, or of an element of one."""

    locks: bool
    mutex: tuple[str, int | None]


@dataclass
class Meet:
    """A create or a join of an object, or of an element of one: by its number, or by a local."""

    creates: bool
    name: str
    index: int | str | None


@dataclass
class End:
    """The end of the thread."""


Step = Union[Assign, Test, Less, Go, Hold, Meet, End]


class Code:
    """A thread's function as a list of steps, calls inlined."""

    def __init__(self, program: Program, name: str) -> None:
        self.program, self.depth = program, 0
        self.steps: list[Step] = []
        self.block(program.functions[name], "", None)
        self.steps.append(End())

    def block(self, body: list[Statement], scope: str, ends: list[Go] | None) -> None:
        for statement in body:
            self.statement(statement, scope, ends)

    def target(self, target: Target, scope: str) -> str:
        return target.name if isinstance(target, Use) else scope + target

    def statement(self, it: Statement, scope: str, ends: list[Go] | None) -> None:
        """The steps of a statement of a function whose locals have names in this scope. A return of an inlined call
        goes to the end of that call; one of the thread's own function ends the thread."""
        steps = self.steps
        if isinstance(it, Set):
            steps.append(Assign(self.target(it.target, scope), it.value, it.adds))
        elif isinstance(it, If):
            self.choice(it, scope, ends)
        elif isinstance(it, Loop):
            body = it.body
            self.counted(scope + it.counter, range(it.times), lambda: self.block(body, scope, ends))
        elif isinstance(it, Mutex):
            steps.append(Hold(it.locks, (it.name, it.index)))
        elif isinstance(it, Thread):
            steps.append(Meet(it.creates, it.name, scope + it.index if isinstance(it.index, str) else it.index))
        elif isinstance(it, JoinLoop):
            join = Meet(False, it.name, scope + it.counter)
            self.counted(scope + it.counter, it.steps, lambda: steps.append(join))
        elif isinstance(it, Call):
            self.call(it, scope)
        elif ends is None:
            steps.append(End())
        else:
            if it.value is not None:
                steps.append(Assign(f"{scope}result", it.value, False))
            ends.append(Go())
            steps.append(ends[-1])

    def choice(self, it: If, scope: str, ends: list[Go] | None) -> None:
        test, out = Test(it.test), Go()
        self.steps.append(test)
        self.block(it.then, scope, ends)
        self.steps.append(out)
        test.to = len(self.steps)
        self.block(it.other, scope, ends)
        out.to = len(self.steps)

    def counted(self, counter: str, numbers: range, body: Callable[[], None]) -> None:
        self.steps.append(Assign(counter, Sum([], [], numbers.start), False))
        begin, less = len(self.steps), Less(counter, numbers.stop)
        self.steps.append(less)
        body()
        self.steps.append(Assign(counter, Sum([], [], 1), True))
        self.steps.append(Go(begin))
        less.to = len(self.steps)

    def call(self, it: Call, scope: str) -> None:
        self.depth += 1
        inner = f"{scope}{it.name}{self.depth}."
        ends: list[Go] = []
        self.block(self.program.functions[it.name], inner, ends)
        for go in ends:
            go.to = len(self.steps)
        if it.target is not None:
            self.steps.append(Assign(self.target(it.target, scope), Sum([], [f"{inner}result"], 0), False))


UNUSED, RUNNING, FINISHED = range(3)
# Of a thread whether it is used, its step and its locals.
Slot = tuple[int, int, tuple[tuple[str, int], ...]]
# The globals, the mutexes with their owners, the threads.
State = tuple[tuple[int, ...], tuple[int, ...], tuple[Slot, ...]]


class Run:
    """All interleavings of a program, up to so many states. A step that is undefined is not taken."""

    def __init__(self, program: Program, most: int) -> None:
        self.program, self.most = program, most
        self.codes = {name: Code(program, name).steps for name in ("main", "f", "g")}
        self.routines = ["main"]
        self.ids: dict[tuple[str, int | None], int] = {}
        for name, index in elements(program.objects):
            self.ids[name, index] = len(self.routines)
            self.routines.append(program.routines[name])
        self.mutexes = {mutex: at for at, mutex in enumerate(elements(program.mutexes))}
        self.places = {name: at for at, name in enumerate(program.globals)}

    def start(self) -> State:
        unused: Slot = (UNUSED, 0, ())
        threads: tuple[Slot, ...] = ((RUNNING, 0, ()), *[unused] * (len(self.routines) - 1))
        return (0,) * len(self.places), (-1,) * len(self.mutexes), threads

    def step_of(self, state: State, i: int) -> tuple[Step, int]:
        """A thread's next step, and its place in the thread's code."""
        at = state[2][i][1]
        steps = self.codes[self.routines[i]]
        step = steps[at]
        while isinstance(step, Go):
            at = step.to
            step = steps[at]
        return step, at

    def touched(self, step: Step) -> tuple[list[str], str | None]:
        """The globals that a step reads, and the one that it writes."""
        if isinstance(step, Assign):
            written = step.name if step.name in self.places else None
            reads = [use.name for use in step.value.uses]
            return reads + [step.name] * (step.adds and written is not None), written
        return [use.name for use in step.value.uses] if isinstance(step, Test) else [], None

    def value(self, total: Sum, values: tuple[int, ...], held: dict[str, int]) -> int:
        of_globals = sum(values[self.places[use.name]] for use in total.uses)
        return of_globals + sum(held.get(name, 0) for name in total.locals) + total.constant

    def taken(self, state: State, i: int) -> State | None:
        """The state behind the next step of a running thread; none where it is blocked or undefined."""
        values, owners, threads = state
        step, at = self.step_of(state, i)
        held = dict(threads[i][2])
        after = at + 1
        moved: dict[int, Slot] = {}
        if isinstance(step, Assign):
            number = self.value(step.value, values, held)
            if step.name in self.places:
                place = self.places[step.name]
                number += values[place] if step.adds else 0
                values = (*values[:place], number, *values[place + 1:])
            else:
                held[step.name] = number + (held.get(step.name, 0) if step.adds else 0)
        elif isinstance(step, Test):
            after = after if self.value(step.value, values, held) % 2 else step.to
        elif isinstance(step, Less):
            after = after if held[step.counter] < step.stop else step.to
        elif isinstance(step, Hold):
            mutex = self.mutexes[step.mutex]
            if owners[mutex] != (-1 if step.locks else i):
                return None
            owners = (*owners[:mutex], i if step.locks else -1, *owners[mutex + 1:])
        elif isinstance(step, Meet):
            other = self.ids[step.name, held[step.index] if isinstance(step.index, str) else step.index]
            if other == i or threads[other][0] != (UNUSED if step.creates else FINISHED):
                return None
            moved[other] = (RUNNING if step.creates else UNUSED, 0, ())
        elif i == 0:
            return None
        else:
            moved[i] = (FINISHED, 0, ())
        moved.setdefault(i, (RUNNING, after, tuple(sorted(held.items()))))
        return values, owners, tuple(moved.get(j, thread) for j, thread in enumerate(threads))

    def races_in(self, nexts: list[Step]) -> bool:
        touches = [self.touched(step) for step in nexts]
        for at, (reads, writes) in enumerate(touches):
            for others, written in touches[at + 1:]:
                if writes is not None and writes in [*others, written]:
                    return True
                if written is not None and written in [*reads, writes]:
                    return True
        return False

    def races(self) -> tuple[bool, bool]:
        """Whether two threads race in a state that some interleaving reaches, and whether all states were seen."""
        first = self.start()
        seen, left = {first}, deque([first])
        while left:
            state = left.popleft()
            nexts = []
            for i, thread in enumerate(state[2]):
                if thread[0] != RUNNING:
                    continue
                after = self.taken(state, i)
                if after is None:
                    continue
                nexts.append(self.step_of(state, i)[0])
                if after not in seen and len(seen) < self.most:
                    seen.add(after)
                    left.append(after)
            if self.races_in(nexts):
                return True, len(seen) < self.most
        return False, len(seen) < self.most


def elements(lengths: dict[str, int]) -> Iterator[tuple[str, int | None]]:
    """Each element of each array, and each scalar, which has length 0."""
    for name, length in lengths.items():
        yield from ((name, index if length else None) for index in range(length or 1))


# ---- the discipline

# Walks that are wrong, each in one way.
WRONG = [
    "quiet after any join",
    "a loop keeps its sets",
    "what either way of an if holds",
    "an unlock keeps",
    "a join of one element",
    "a create keeps",
    "one thread a routine",
]
# The objects that are unused, and the mutexes that are held.
Sets = tuple[frozenset[str], frozenset[str]]


@dataclass
class Access:
    """A global where a thread names it: whether it is written, the function whose walk it is, and the mutexes that are
    held there."""

    name: str
    place: int
    written: bool
    walk: str
    held: frozenset[str]


class Walk:
    """What a thread meets, and what is surely so there: the objects that are unused, and the mutexes that are held."""

    def __init__(self, program: Program, name: str, wrong: str | None) -> None:
        self.program, self.name, self.main, self.wrong = program, name, name == "main", wrong
        self.met: list[Access] = []
        self.returns: list[Sets] = []
        self.joined = False
        self.block(program.functions[name], (frozenset(program.objects) if self.main else frozenset(), frozenset()))

    def touch(self, sets: Sets, use: Use, written: bool) -> None:
        unused = sets[0] == set(self.program.objects) or (self.wrong == WRONG[0] and self.joined)
        if not (self.main and unused):
            self.met.append(Access(use.name, use.place, written, self.name, sets[1]))

    def read(self, sets: Sets, value: Sum | None) -> None:
        for use in value.uses if value is not None else []:
            self.touch(sets, use, False)

    def write(self, sets: Sets, target: Target, adds: bool) -> None:
        if isinstance(target, Use):
            if adds:
                self.touch(sets, target, False)
            self.touch(sets, target, True)

    def meet(self, a: Sets, b: Sets) -> Sets:
        if self.wrong == WRONG[2]:
            return a[0] | b[0], a[1] | b[1]
        return a[0] & b[0], a[1] & b[1]

    def behind(self, it: Mutex | Thread, sets: Sets) -> Sets:
        """What is so behind a call of pthreads."""
        unused, held = sets
        if isinstance(it, Mutex):
            if not it.locks:
                return sets if self.wrong == WRONG[3] else (unused, held - {it.name})
            return (unused, held | {it.name}) if it.index is None else sets
        if it.creates:
            return sets if self.wrong == WRONG[5] else (unused - {it.name}, held)
        self.joined = True
        return (unused | {it.name}, held) if it.index is None or self.wrong == WRONG[4] else sets

    def lowered(self, body: list[Statement], sets: Sets) -> Sets:
        """Without what the creates and unlocks in a statement take out, those of calls included."""
        if self.wrong == WRONG[1]:
            return sets
        for it in inside(self.program, body):
            if isinstance(it, Mutex) and not it.locks:
                sets = sets[0], sets[1] - {it.name}
            elif isinstance(it, Thread) and it.creates:
                sets = sets[0] - {it.name}, sets[1]
        return sets

    def called(self, name: str, sets: Sets) -> Sets:
        outer, self.returns = self.returns, []
        sets = self.block(self.program.functions[name], sets)
        for point in self.returns:
            sets = self.meet(sets, point)
        self.returns = outer
        return sets

    def block(self, body: list[Statement], sets: Sets) -> Sets:
        for statement in body:
            sets = self.statement(statement, sets)
        return sets

    def statement(self, it: Statement, sets: Sets) -> Sets:
        if isinstance(it, Set):
            self.read(sets, it.value)
            self.write(sets, it.target, it.adds)
        elif isinstance(it, If):
            self.read(sets, it.test)
            return self.meet(self.block(it.then, sets), self.block(it.other, sets))
        elif isinstance(it, Loop):
            sets = self.lowered(it.body, sets)
            self.block(it.body, sets)
        elif isinstance(it, (Mutex, Thread)):
            return self.behind(it, sets)
        elif isinstance(it, JoinLoop):
            self.joined = True
            return (sets[0] | {it.name}, sets[1]) if it.counts else sets
        elif isinstance(it, Call) and it.target is None:
            return self.called(it.name, sets)
        elif isinstance(it, Call):
            sets = self.lowered(self.program.functions[it.name], sets)
            self.called(it.name, sets)
            if it.target is not None:
                self.write(sets, it.target, False)
        else:
            self.read(sets, it.value)
            self.returns.append(sets)
        return sets


def inside(program: Program, body: Iterable[Statement]) -> Iterator[Statement]:
    """All statements in a list of them, and in the functions that it calls."""
    for it in body:
        yield it
        if isinstance(it, If):
            yield from inside(program, [*it.then, *it.other])
        elif isinstance(it, Loop):
            yield from inside(program, it.body)
        elif isinstance(it, Call):
            yield from inside(program, program.functions[it.name])


def is_disciplined(met: list[Access], owners: set[str]) -> bool:
    """None writes, or all are of one thread, or one mutex is held at all."""
    walks = {access.walk for access in met}
    if not any(access.written for access in met) or (len(walks) == 1 and walks <= owners):
        return True
    return bool(frozenset.intersection(*(access.held for access in met)))


def creators(program: Program) -> list[int]:
    """Where a thread besides main creates or joins one."""
    statements = (it for name in "fg" for it in inside(program, program.functions[name]))
    return [it.place for it in statements if isinstance(it, (Thread, JoinLoop))]


def created(program: Program) -> set[str]:
    """The objects that a create names."""
    statements = (it for body in program.functions.values() for it in inside(program, body))
    return {it.name for it in statements if isinstance(it, Thread) and it.creates}


def started(program: Program) -> set[str]:
    """The routines of the threads that are created."""
    return {program.routines[name] for name in created(program)}


def alone(program: Program) -> set[str]:
    """Main, and the routines that one thread alone runs: each element of an object that a create names is a thread,
    whatever the number of creates."""
    used = created(program)
    runs = [program.routines[name] for name, _ in elements(program.objects) if name in used]
    return {"main", *(routine for routine in runs if runs.count(routine) == 1)}


def verdict(program: Program, wrong: str | None = None) -> str:
    """The line of `hls check`: the number of globals, or the place and the name of the first doubt."""
    if places := creators(program):
        return f"hls: doubt at byte {min(places)}: creator\n"
    walked = ["main", *sorted(started(program))]
    met = [access for name in walked for access in Walk(program, name, wrong).met]
    owners = set(walked) if wrong == WRONG[6] else alone(program)
    for name in program.globals:
        counted = [access for access in met if access.name == name]
        if counted and not is_disciplined(counted, owners):
            return f"hls: doubt at byte {min(access.place for access in counted)}: {name}\n"
    return f"hls: disciplined, {len(program.globals)} globals\n"
