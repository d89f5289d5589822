"""Random programs with threads, each from a seed, without undefined steps, that print the same whatever the
interleaving.

A thread writes elements of its own and sums that hang on no order, each under its mutex. The threads of a routine that
has a barrier meet at it, all as often; between two meetings an element is written by one thread, or read by many. While
threads run one routine prints at most, one of its threads between two meetings. Threads are created again after they
were joined, and create threads of their own."""
from __future__ import annotations

from typing import Callable

from programs import SIGNED, UNSIGNED, Scope, Writer

OPERATORS = ["+", "+", "^", "|", "&"]
# how the number of a thread is handed over, and how it is read
CODES = [
    ("(long){}", "(long)arg"),
    ("((long){} + 5000000000)", "(long)arg - 5000000000"),
    ("(-1L - {})", "-1 - (long)arg"),
    ("({} * 3 + 1)", "((long)arg - 1) / 3"),
]


ENDS = ["pthread_exit(NULL)", "return NULL", "return (void *)id"]


class Group:
    """The threads of one start routine: its objects with their lengths (0 of a scalar), how many they are, and what
    they have."""

    def __init__(self, routine: str, objects: list[tuple[str, int]], code: tuple[str, str]) -> None:
        self.routine, self.objects, self.code = routine, objects, code
        self.size = sum(max(1, length) for _, length in objects)
        self.slices: dict[str, tuple[str, int]] = {}
        self.barrier: str | None = None
        self.row: str | None = None
        self.kids: Group | None = None
        self.prints, self.waits, self.main = False, 0, 0


class ThreadedWriter(Writer):
    def __init__(self, seed: int | str) -> None:
        super().__init__(seed)
        self.locks: list[str] = []
        self.sums: dict[str, tuple[str, str, int]] = {}
        self.keyed: list[tuple[str, int, str, str]] = []
        self.setup: list[str] = []
        self.lockers: list[str] = []

    def maybe(self, chance: float) -> bool:
        return self.draw.random() < chance

    # ---- globals

    def objects(self, size: int) -> list[tuple[str, int]]:
        """Objects for so many threads: an array, a scalar, or both."""
        if size == 1 and self.maybe(0.7):
            parts = [0]
        elif size > 1 and self.maybe(0.2):
            parts = self.draw.choice([[0, size - 1], [size - 1, 0]])
        else:
            parts = [size]
        return [(self.name("t"), length) for length in parts]

    def declare_objects(self, groups: list[Group]) -> None:
        lines = [
            f"pthread_t {name}{f'[{length}]' if length else ''};" for group in groups for name, length in group.objects
        ]
        lines += [f"pthread_t {self.name('spare')}[{self.draw.randrange(1, 3)}];"] * self.maybe(0.2)
        self.draw.shuffle(lines)
        for line in lines:
            self.put(0, line)

    def declare_locks(self) -> None:
        for _ in range(self.draw.randrange(1, 4)):
            name = self.name("m")
            kind = self.draw.randrange(3)
            if kind == 0:
                self.put(0, f"pthread_mutex_t {name} = PTHREAD_MUTEX_INITIALIZER;")
                self.locks.append(name)
            elif kind == 1:
                self.put(0, f"pthread_mutex_t {name};")
                self.setup.append(f"pthread_mutex_init(&{name}, NULL);")
                self.locks.append(name)
            else:
                length = self.draw.randrange(2, 5)
                self.put(0, f"pthread_mutex_t {name}[{length}];")
                self.setup.append(f"for (i = 0; i < {length}; i++) pthread_mutex_init(&{name}[i], NULL);")
                self.keyed.append((name, length, self.global_array(length), self.draw.choice(OPERATORS)))
                self.locks += [f"{name}[{at}]" for at in range(length)]
        for _ in range(self.draw.randrange(1, 4)):
            name = self.name("s")
            width = self.draw.choice(UNSIGNED)
            self.put(0, f"{width} {name} = {self.draw.randrange(128)};")
            # a sum under a mutex of an array is not one of the sums that are kept by all of its mutexes
            self.sums[name] = (width, self.draw.choice(OPERATORS), self.draw.randrange(len(self.locks)))

    def global_array(self, length: int) -> str:
        name = self.name("c")
        kind = self.draw.choice(UNSIGNED)
        self.put(0, f"{kind} {name}[{length}];")
        return name

    def declare_slices(self, group: Group) -> None:
        for _ in range(self.draw.randrange(1, 3)):
            name, kind, part = self.name("g"), self.draw.choice(UNSIGNED + SIGNED), self.draw.choice([1, 1, 2, 3, 4, 5])
            self.put(0, f"{kind} {name}[{group.size * part}];")
            group.slices[name] = (kind, part)

    def numbers(self, count: int) -> str:
        return ", ".join(str(self.draw.randrange(128)) for _ in range(count))

    def declare_tables(self) -> Scope:
        tables = Scope()
        for _ in range(self.draw.randrange(3)):
            name, kind, length = self.name("k"), self.draw.choice(UNSIGNED + SIGNED), self.draw.choice([2, 3, 5, 8])
            self.put(0, f"const {kind} {name}[{length}] = {{{self.numbers(length)}}};")
            tables.arrays[name] = (kind, length)
            tables.fixed.add(name)
        name = self.name("k")
        self.put(0, f"unsigned {name};")
        self.setup.append(f"{name} = {self.draw.randrange(1 << 16)};")
        tables.scalars[name] = "unsigned"
        tables.fixed.add(name)
        return tables

    # ---- what threads do

    def update(self, scope: Scope, depth: int, place: str, operator: str) -> None:
        value = self.unsigned(scope, 1)
        self.put(
            depth,
            self.draw.choice(
                [
                    f"{place} = {place} {operator} {value};",
                    f"{place} {operator}= {value};",
                    f"{place} = ({value}) {operator} {place};",
                ]
            ),
        )

    def updates(self, scope: Scope, depth: int, lock: int) -> None:
        for name, (_, operator, at) in sorted(self.sums.items()):
            if at == lock and self.maybe(0.8):
                self.update(scope, depth, name, operator)

    def section(self, scope: Scope, depth: int) -> None:
        """Sums under mutexes, of which the one that stands first is taken first."""
        kind = self.draw.randrange(5)
        if kind == 0 and self.keyed:
            name, length, counts, operator = self.draw.choice(self.keyed)
            key = self.name("v")
            self.put(depth, f"{{ int {key} = (int)((unsigned)({self.value(scope, 1)}) % {length}u);")
            self.put(depth, f"pthread_mutex_lock(&{name}[{key}]);")
            self.update(scope, depth, f"{counts}[{key}]", operator)
            self.put(depth, f"pthread_mutex_unlock(&{name}[{key}]); }}")
        elif kind == 1 and self.lockers:
            self.put(depth, f"{self.draw.choice(self.lockers)}({self.value(scope, 1)});")
        elif kind == 2 and len(self.locks) > 1:
            both = sorted(self.draw.sample(range(len(self.locks)), 2))
            for lock in both:
                self.put(depth, f"pthread_mutex_lock(&{self.locks[lock]});")
            for lock in both:
                self.updates(scope, depth, lock)
            for lock in self.draw.sample(both, 2):
                self.put(depth, f"pthread_mutex_unlock(&{self.locks[lock]});")
        else:
            lock = self.draw.choice([at for _, _, at in self.sums.values()])
            self.put(depth, f"pthread_mutex_lock(&{self.locks[lock]});")
            self.updates(scope, depth, lock)
            self.put(depth, f"pthread_mutex_unlock(&{self.locks[lock]});")

    def locker(self, tables: Scope) -> None:
        name, parameter, kind = self.name("f"), self.name("p"), self.draw.choice(UNSIGNED + SIGNED)
        self.put(0, f"void {name}({kind} {parameter}) {{")
        scope = Scope(tables)
        scope.scalars[parameter] = kind
        self.section(scope, 1)
        if self.maybe(0.4):
            self.put(1, f"if ({self.condition(scope, 0)}) return;")
            self.section(scope, 1)
        self.put(0, "}")
        self.lockers.append(name)

    def wait(self, group: Group, depth: int, times: int) -> None:
        self.put(depth, f"pthread_barrier_wait(&{group.barrier});")
        group.waits += times

    def meet(self, group: Group, scope: Scope, depth: int, times: int) -> None:
        """Each writes an element of its own, and after a meeting reads those of others; or one of them prints."""
        if group.prints and self.maybe(0.5):
            self.put(depth, f"if (id == {self.draw.randrange(group.size)}) {{")
            self.print(scope, depth + 1)
            self.put(depth, "}")
            return self.wait(group, depth, times)
        self.put(depth, f"{group.row}[id] = {self.value(scope, 1)};")
        self.wait(group, depth, times)
        self.put(
            depth,
            f"r = r {self.draw.choice('+^*')} {group.row}[(id + {self.draw.randrange(group.size)}) % {group.size}];",
        )
        self.wait(group, depth, times)

    def descend(self, group: Group, scope: Scope, depth: int) -> None:
        """Creates a thread of its own, and joins it."""
        kids = group.kids
        assert kids
        self.put(depth, self.creation(kids, f"{kids.objects[0][0]}[id]", "id"))
        if self.maybe(0.7):
            self.section(scope, depth)
        self.put(depth, f"pthread_join({kids.objects[0][0]}[id], NULL);")
        for name, (_, part) in sorted(kids.slices.items()):
            self.put(depth, f"r = r ^ (unsigned){name}[id * {part} + {self.draw.randrange(part)}];")

    def item(self, group: Group, scope: Scope, depth: int, times: int) -> None:
        kind = self.draw.randrange(12)
        if kind < 2:
            self.assign(scope, depth)
        elif kind < 3:
            self.put(depth, "{")
            self.block(scope, depth + 1, 1, self.draw.randrange(1, 4), False)
            self.put(depth, "}")
        elif kind < 5:
            self.section(scope, depth)
        elif kind < 6:
            self.put(depth, f"if ({self.condition(scope)}) {{")
            self.section(scope, depth + 1)
            if self.maybe(0.4):
                self.put(depth, "} else {")
                self.section(scope, depth + 1)
            self.put(depth, "}")
        elif kind < 8 and times < 4:
            turn, most = self.name("i"), self.draw.randrange(1, 4)
            inner = Scope(scope)
            inner.scalars[turn] = "int"
            inner.fixed.add(turn)
            self.put(depth, f"for (int {turn} = 0; {turn} < {most}; {turn}++) {{")
            for _ in range(self.draw.randrange(1, 3)):
                self.item(group, inner, depth + 1, times * most)
            self.put(depth, "}")
        elif kind < 11 and group.barrier:
            self.meet(group, scope, depth, times)
        elif kind < 12 and group.kids:
            self.descend(group, scope, depth)
        else:
            self.section(scope, depth)

    def owns(self, group: Group, scope: Scope) -> None:
        """The elements that each thread of the group has for itself."""
        for name, (element, part) in group.slices.items():
            scope.arrays[name] = (element, part, f"id * {part}")

    def routine(self, group: Group, tables: Scope) -> None:
        self.put(0, f"void *{group.routine}(void *arg) {{")
        kind = "int" if self.maybe(0.3) else "long"
        self.put(1, f"{kind} id = {'(int)' if kind == 'int' else ''}({group.code[1]});")
        self.put(1, f"unsigned r = (unsigned)id + {self.draw.randrange(9)}u;")
        scope = Scope(tables)
        scope.scalars.update({"r": "unsigned", "id": kind})
        scope.fixed.add("id")
        self.owns(group, scope)
        for _ in range(self.draw.randrange(3)):
            self.declare(scope, 1)
        self.room = 10
        for _ in range(self.draw.randrange(1, 6)):
            self.item(group, scope, 1, 1)
        if self.maybe(0.2):
            self.put(1, f"if ({self.condition(scope, 0)}) {self.draw.choice(ENDS)};")
            self.section(scope, 1)
        name, (_, part) = self.draw.choice(sorted(group.slices.items()))
        self.put(1, f"{name}[id * {part} + {self.draw.randrange(part)}] = r;")
        self.put(1, self.draw.choice(["return NULL;", "return 0;", "pthread_exit(NULL);", "return (void *)(long)r;"]))
        self.put(0, "}")

    # ---- main

    def each_thread(self, group: Group, depth: int, line: Callable[[str, str], str]) -> None:
        """The line for each thread of the group: of a loop over the elements of an array, or of one after another."""
        first = 0
        for name, length in group.objects:
            if length and self.maybe(0.7):
                self.put(
                    depth, f"for (i = 0; i < {length}; i++) {line(f'{name}[i]', f'(i + {first})' if first else 'i')}"
                )
            else:
                for at in range(max(1, length)):
                    self.put(depth, line(f"{name}[{at}]" if length else name, str(first + at)))
            first += max(1, length)

    def creation(self, group: Group, place: str, number: str) -> str:
        return f"pthread_create(&{place}, NULL, {group.routine}, (void *){group.code[0].format(number)});"

    def create(self, group: Group, depth: int) -> None:
        self.each_thread(group, depth, lambda place, number: self.creation(group, place, number))

    def join(self, group: Group, depth: int) -> None:
        self.each_thread(group, depth, lambda place, _: f"pthread_join({place}, NULL);")

    def life(self, groups: list[Group], scope: Scope, depth: int) -> None:
        """All threads are created, main does its part, and all are joined."""
        for group in groups:
            if group.barrier:
                self.put(depth, f"pthread_barrier_init(&{group.barrier}, NULL, {group.size + group.main});")
        early = groups[0] if len(groups) > 1 and self.maybe(0.3) else None
        for group in groups:
            self.create(group, depth)
            if self.maybe(0.4):
                self.section(scope, depth)
            if group is early and not group.main:
                self.join(group, depth)
        if self.maybe(0.5):
            self.put(depth, "{")
            self.room = 6
            self.block(scope, depth + 1, 1, self.draw.randrange(1, 4), not any(group.prints for group in groups))
            self.put(depth, "}")
        for group in groups:
            if group.main and group.waits:
                self.put(depth, f"for (i = 0; i < {group.waits}; i++) {{")
                self.put(depth + 1, f"pthread_barrier_wait(&{group.barrier});")
                if self.maybe(0.5):
                    self.section(scope, depth + 1)
                self.put(depth, "}")
        rest = [group for group in groups if group is not early or group.main]
        for group in self.draw.sample(rest, len(rest)):
            self.join(group, depth)
        for group in groups:
            if group.barrier:
                self.put(depth, f"pthread_barrier_destroy(&{group.barrier});")

    def results(self, groups: list[Group]) -> None:
        for name in sorted(self.sums):
            self.put(1, f'printf("%lu\\n", (unsigned long){name});')
        for _, length, counts, _ in self.keyed:
            self.put(1, f'for (i = 0; i < {length}; i++) printf("%lu\\n", (unsigned long){counts}[i]);')
        for group in groups:
            for name, (_, part) in group.slices.items():
                self.put(1, f'for (i = 0; i < {group.size * part}; i++) printf("%ld\\n", (long){name}[i]);')

    def groups(self) -> list[Group]:
        sizes = self.draw.choice([[1], [2], [2], [3], [4], [1, 1], [2, 1], [2, 2], [3, 2], [1, 2, 1]])
        groups = [Group(self.name("work"), self.objects(size), self.draw.choice(CODES)) for size in sizes]
        if self.maybe(0.25):
            parent = self.draw.choice([group for group in groups if group.size < 4] or groups)
            parent.kids = Group(self.name("work"), [(self.name("t"), parent.size)], self.draw.choice(CODES))
        return groups

    def program(self) -> None:
        self.put(0, "#include <pthread.h>")
        groups = self.groups()
        kids = [group.kids for group in groups if group.kids]
        self.declare_objects(groups + kids)
        self.declare_locks()
        printing = self.maybe(0.4)
        for group in groups:
            group.main = 0
            if self.maybe(0.55):
                group.barrier, group.row = self.name("b"), self.name("h")
                group.main, group.prints = int(self.maybe(0.3)), printing
                printing = False
                self.put(0, f"pthread_barrier_t {group.barrier};")
                self.put(0, f"{self.draw.choice(UNSIGNED)} {group.row}[{group.size}];")
        tables = self.declare_tables()
        for group in groups + kids:
            self.declare_slices(group)
        for _ in range(self.draw.randrange(2)):
            self.function(tables)
        for _ in range(self.draw.randrange(2)):
            self.locker(tables)
        for group in kids + groups:
            self.routine(group, tables)
        self.put(0, "int main(void) {")
        self.put(1, "int i;")
        scope = Scope(tables)
        for line in self.setup:
            self.put(1, line)
        self.declare(scope, 1)
        if self.maybe(0.3):
            lives = self.name("i")
            scope.scalars[lives] = "int"
            scope.fixed.add(lives)
            self.put(1, f"for (int {lives} = 0; {lives} < 2; {lives}++) {{")
            self.life(groups, scope, 2)
            self.put(1, "}")
        else:
            self.life(groups, scope, 1)
        self.results(groups + kids)
        self.put(1, "return 0;")
        self.put(0, "}")
