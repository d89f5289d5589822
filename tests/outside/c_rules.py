"""The rules on names, kinds, types and constants by the words of docs/USING.md and C99: what a text declares, its
weight, and the first rule that it breaks, by its place and then by its number; then the limits."""
from __future__ import annotations

import re
from dataclasses import dataclass, field
from typing import Union

import c_texts as c
from c_texts import INT, LONG, UNSIGNED, UNSIGNED_LONG, Integer, Refused, broken, passed

MOST_LENGTH = 2**64 - 1
MOST_INLINED = 1_000_000
CONVERSIONS = {"%d": INT, "%u": UNSIGNED, "%ld": LONG, "%lu": UNSIGNED_LONG, "%lld": LONG, "%llu": UNSIGNED_LONG}
PIECES = re.compile(r'\\[nt\\"]|%(?:%|(?:l|ll)?[du])|[^\\%]')
# how many arguments the calls of POSIX threads have
COUNTS = {
    "printf": -1,
    "pthread_create": 4,
    "pthread_join": 2,
    "pthread_exit": 1,
    "pthread_mutex_init": 2,
    "pthread_mutex_destroy": 1,
    "pthread_mutex_lock": 1,
    "pthread_mutex_unlock": 1,
    "pthread_barrier_init": 3,
    "pthread_barrier_destroy": 1,
    "pthread_barrier_wait": 1,
}
OBJECT_WORDS = {"pthread_t": "thread", "pthread_mutex_t": "mutex", "pthread_barrier_t": "barrier"}
# An integer type, void, a kind of objects of POSIX threads, or none that is listed.
Base = Union[Integer, str, None]


class NotConstant(Exception):
    pass


class Undefined(Exception):
    """A step that is undefined: its cause."""


# ---- arithmetic (C99 6.5)


def usual(a: Integer, b: Integer) -> Integer:
    """The type of the usual conversions (6.3.1.8)."""
    a, b = a.promoted(), b.promoted()
    if 64 in (a.width, b.width):
        return UNSIGNED_LONG if UNSIGNED_LONG in (a, b) else LONG
    return UNSIGNED if UNSIGNED in (a, b) else INT


def is_comparison(operator: str) -> bool:
    return operator in ("==", "!=", "<", ">", "<=", ">=")


def working_type(operator: str, a: Integer, b: Integer) -> Integer:
    """The type in which an operator works."""
    return a.promoted() if operator in ("<<", ">>") else usual(a, b)


def unary(operator: str, kind: Integer, number: int) -> int:
    """A unary operator on a value of the promoted type."""
    if operator == "!":
        return int(number == 0)
    if operator == "~":
        return kind.wrap(~number)
    return fitted(kind, -number) if operator == "-" else number


def fitted(kind: Integer, number: int) -> int:
    if kind.signed and not kind.holds(number):
        raise Undefined("overflow")
    return kind.wrap(number)


def shifted(operator: str, kind: Integer, a: int, count: int) -> int:
    if not 0 <= count < kind.width or (operator == "<<" and kind.signed and a < 0):
        raise Undefined("shift")
    if operator == ">>":
        return a >> count
    if kind.signed and not kind.holds(a << count):
        raise Undefined("shift")
    return kind.wrap(a << count)


def divided(operator: str, kind: Integer, a: int, b: int) -> int:
    if b == 0:
        raise Undefined("divisor")
    quotient = abs(a) // abs(b) * (1 if (a < 0) == (b < 0) else -1)
    fitted(kind, quotient)
    return quotient if operator == "/" else a - quotient * b


def binary(operator: str, a_type: Integer, a: int, b_type: Integer, b: int) -> int:
    """An operator but a short circuit on values of these types."""
    kind = working_type(operator, a_type, b_type)
    if operator in ("<<", ">>"):
        return shifted(operator, kind, a, b)
    a, b = kind.wrap(a), kind.wrap(b)
    if is_comparison(operator):
        return int({"==": a == b, "!=": a != b, "<": a < b, ">": a > b, "<=": a <= b, ">=": a >= b}[operator])
    if operator in ("/", "%"):
        return divided(operator, kind, a, b)
    if operator in ("&", "|", "^"):
        return {"&": a & b, "|": a | b, "^": a ^ b}[operator]
    return fitted(kind, {"+": a + b, "-": a - b, "*": a * b}[operator])


# ---- what names stand for


@dataclass(eq=False)
class Variable:
    """An integer object; its lengths are those of its dimensions."""

    name: str
    type: Integer
    lengths: list[int]
    is_const: bool
    is_global: bool
    initial: list[int] = field(default_factory=list)

    def elements(self) -> int:
        found = 1
        for length in self.lengths:
            found = min(found * length, MOST_LENGTH)
        return found


@dataclass(eq=False)
class Pointed:
    """The parameter of a start routine, and the long that it holds."""

    variable: Variable


@dataclass(eq=False)
class Thing:
    """An object of POSIX threads; its elements are numbered on behind those of its kind before it."""

    kind: str
    lengths: list[int]
    first: int
    initialised: bool = False
    routine: Definition | None = None

    def elements(self) -> int:
        return self.lengths[0] if self.lengths else 1


@dataclass(eq=False)
class Definition:
    """A function with a body: what it weighs by itself, and for each call in it the function called."""

    tree: c.Function
    returns: Integer | None = None
    is_routine: bool = False
    parameters: list[Variable] = field(default_factory=list)
    locals: list[Variable] = field(default_factory=list)
    weight: int = 1
    prints: int = 0
    calls: list[Definition] = field(default_factory=list)


@dataclass(eq=False)
class Header:
    name: str
    returns: tuple[Base, bool]
    parameters: list[tuple[Base, bool]]
    definition: Definition | None

    def is_main(self) -> bool:
        return self.name == "main" and self.returns == (INT, False) and not self.parameters

    def is_routine(self) -> bool:
        return self.returns == ("void", True) and self.parameters == [("void", True)]

    def gives(self) -> str:
        base, is_pointer = self.returns
        if is_pointer:
            return "pointer" if self.is_routine() else ""
        return "integer" if isinstance(base, Integer) else "nothing" if base == "void" else ""


@dataclass(eq=False)
class Library:
    name: str


UNUSABLE = object()
Meaning = Union[Variable, Pointed, Thing, Header, Library, object, None]


def base_of(words: list[str]) -> Base:
    """The type that words spell (6.7.2): at most one static, and const beside integer types alone."""
    if words.count("static") > 1:
        return None
    left = [word for word in words if word not in ("static", "const")]
    if len(left) == 1 and left[0] in ("void", *OBJECT_WORDS):
        return None if "const" in words else OBJECT_WORDS.get(left[0], "void")
    signs = [word for word in left if word in ("signed", "unsigned")]
    sizes = sorted(word for word in left if word not in ("signed", "unsigned"))
    widths = {"char": 8, "short": 16, "int short": 16, "int": 32, "long": 64, "int long": 64, "long long": 64}
    widths |= {"int long long": 64} | ({"": 32} if signs else {})
    width = widths.get(" ".join(sizes))
    return Integer(width, signs != ["unsigned"]) if width and len(signs) <= 1 else None


def plain_integer(words: list[str]) -> Integer | None:
    base = base_of(words)
    return base if isinstance(base, Integer) and "static" not in words else None


def constant(e: c.Expression) -> tuple[int, Integer] | None:
    """The value of a constant expression (6.6); None where it is one but for what breaks another rule."""
    if isinstance(e, c.Constant):
        return e.value
    try:
        if isinstance(e, c.Unary):
            found = constant(e.operand)
            if found is None:
                return None
            kind = found[1].promoted()
            return unary(e.operator, kind, kind.wrap(found[0])), INT if e.operator == "!" else kind
        if isinstance(e, c.Cast):
            found, kind_of_words = constant(e.operand), plain_integer(e.words)
            return (kind_of_words.wrap(found[0]), kind_of_words) if found and kind_of_words else None
        if isinstance(e, c.Binary) and e.operator not in ("&&", "||"):
            a, b = constant(e.left), constant(e.right)
            if a is None or b is None:
                return None
            kind = INT if is_comparison(e.operator) else working_type(e.operator, a[1], b[1])
            return binary(e.operator, a[1], a[0], b[1], b[0]), kind
    except Undefined as why:
        raise NotConstant from why
    raise NotConstant


def conversions(text: str) -> list[Integer] | None:
    """The types of a format's conversions; None where it is none of the profile."""
    pieces = PIECES.findall(text)
    if not text or "".join(pieces) != text:
        return None
    return [CONVERSIONS[piece] for piece in pieces if piece[0] == "%" and piece != "%%"]


# ---- the rules


@dataclass
class Program:
    definitions: list[Definition]
    main: Definition
    globals: list[Variable]
    things: list[Thing]

    def of(self, kind: str) -> list[Thing]:
        return [thing for thing in self.things if thing.kind == kind]

    def count(self, kind: str) -> int:
        return sum(thing.elements() for thing in self.of(kind))

    def threads(self) -> int:
        return 1 + self.count("thread")

    def thread_functions(self) -> list[Definition]:
        """Main, and the start routines that a create names, in order of definition."""
        routines = [thing.routine for thing in self.of("thread")]
        return [it for it in self.definitions if it is self.main or it in routines]

    def inlined(self, definition: Definition, of_one: dict[int, int]) -> int:
        """The amount of a function, with those of the functions that it calls, once for each call."""
        known: dict[int, int] = {}

        def amount(it: Definition) -> int:
            if id(it) not in known:
                known[id(it)] = of_one[id(it)] + sum(amount(callee) for callee in it.calls)
            return known[id(it)]

        return amount(definition)

    def weight_of(self, definition: Definition) -> int:
        return self.inlined(definition, {id(it): it.weight for it in self.definitions})

    def elements_of(self, definition: Definition) -> int:
        own = {id(it): sum(local.elements() for local in it.locals) for it in self.definitions}
        return self.inlined(definition, own)

    def weight(self) -> int:
        return sum(self.weight_of(it) for it in self.thread_functions())

    def check_limits(self) -> None:
        variables = [*self.globals, *(local for it in self.definitions for local in it.locals)]
        counts = [
            ("functions", len(self.definitions), 128),
            ("thread ids", self.count("thread"), 63),
            ("mutex elements", self.count("mutex"), 64),
            ("barrier elements", self.count("barrier"), 16),
            ("one array", max((it.elements() for it in variables), default=0), 4096),
            ("global elements", sum(it.elements() for it in self.globals), 16_384),
            ("printf sites", sum(it.prints for it in self.definitions), 256),
        ]
        functions = self.thread_functions()
        counts += [("local elements", min(self.elements_of(it), MOST_INLINED), 16_384) for it in functions]
        counts += [("weight", min(self.weight_of(it), MOST_INLINED), 8192) for it in functions]
        for name, count, most in counts:
            if count > most:
                raise passed(name, count, most)


class Rules:
    """Goes through a tree in the order of the text."""

    def __init__(self, tree: list[c.External]) -> None:
        self.tree = tree
        self.faults: list[tuple[int, int]] = []
        self.scopes: list[dict[str, Meaning]] = [{}]
        self.definitions: list[Definition] = []
        self.globals: list[Variable] = []
        self.things: list[Thing] = []
        self.creations: list[tuple[Thing, Definition, int]] = []
        self.call_sites: list[tuple[Definition, Definition, int]] = []
        self.function: Definition | None = None
        self.gives = ""
        # how many loops are round a statement, and how many loops and switches
        self.loops, self.exits = 0, 0
        bodies = [it for it in tree if isinstance(it, c.Function) and it.body is not None]
        self.bodies = {id(it): Definition(it) for it in bodies}
        self.first_bodies: dict[str, Definition] = {}
        for it in bodies:
            self.first_bodies.setdefault(it.name, self.bodies[id(it)])

    def broken(self, rule: int, at: int) -> None:
        self.faults.append((at, rule))

    def broken_if(self, holds: bool, rule: int, at: int) -> None:
        if holds:
            self.broken(rule, at)

    def weigh(self, amount: int = 1) -> None:
        if self.function:
            self.function.weight += amount

    def look_up(self, name: str) -> Meaning:
        if name in COUNTS:
            return Library(name)
        return next((scope[name] for scope in reversed(self.scopes) if name in scope), None)

    def declare(self, name: str, at: int, meaning: Meaning) -> None:
        if name in COUNTS or name in self.scopes[-1]:
            self.broken(5, at)
        else:
            self.scopes[-1][name] = meaning

    def program(self) -> Program:
        for external in self.tree:
            if isinstance(external, c.Function):
                self.define(external)
            else:
                self.objects(external)
        self.check_calls()
        for thing, routine, at in self.creations:
            thing.routine = thing.routine or routine
            self.broken_if(thing.routine is not routine, 9, at)
        if self.faults:
            at, rule = min(self.faults)
            raise broken(rule, at)
        main = self.scopes[0].get("main")
        if not (isinstance(main, Header) and main.is_main() and main.definition):
            raise Refused("E14: no main")
        program = Program(self.definitions, main.definition, self.globals, self.things)
        program.check_limits()
        return program

    def check_calls(self) -> None:
        """A call that lies on a cycle of calls is broken."""
        leads: dict[int, set[int]] = {}

        def reached(definition: Definition) -> set[int]:
            if id(definition) not in leads:
                found, left = {id(definition)}, [definition]
                while left:
                    for callee in left.pop().calls:
                        if id(callee) not in found:
                            found.add(id(callee))
                            left.append(callee)
                leads[id(definition)] = found
            return leads[id(definition)]

        for caller, callee, at in self.call_sites:
            self.broken_if(id(caller) in reached(callee), 8, at)

    # ---- declarations

    def length(self, e: c.Expression) -> int:
        self.value(e)
        try:
            found = constant(e)
        except NotConstant:
            found = (0, INT)
        self.broken_if(found is not None and found[0] < 1, 11, e.at)
        return max(1, min(found[0], MOST_LENGTH)) if found else 1

    def objects(self, declaration: c.Declaration) -> None:
        base, is_pointer = base_of(declaration.words), declaration.is_pointer
        for declarator in declaration.declarators:
            lengths = [self.length(e) for e in declarator.lengths]
            if is_pointer or base is None or base == "void":
                self.broken(6, declarator.at)
                self.declare(declarator.name, declarator.at, UNUSABLE)
            elif isinstance(base, Integer):
                variable = Variable(declarator.name, base, lengths, "const" in declaration.words, True)
                self.declare(declarator.name, declarator.at, variable)
                declarator.variable = variable
                self.globals.append(variable)
                self.initialise(variable, declarator)
            else:
                self.thing(base, lengths, declarator)
            is_pointer = False

    def thing(self, kind: str, lengths: list[int], declarator: c.Declarator) -> None:
        self.broken_if(len(lengths) > 1, 6, declarator.at)
        first = sum(it.elements() for it in self.things if it.kind == kind)
        thing = Thing(kind, lengths[:1], first)
        self.declare(declarator.name, declarator.at, thing)
        self.things.append(thing)
        if declarator.initial is not None:
            thing.initialised = isinstance(declarator.initial, c.MutexInitial) and kind == "mutex" and not lengths
            if not thing.initialised:
                self.broken(6, declarator.at)
                self.look_through(declarator.initial)

    def look_through(self, initial: c.Initial) -> None:
        """An initialiser of another form than its object's."""
        if isinstance(initial, c.Braces):
            for item in initial.items:
                self.look_through(item)
        elif not isinstance(initial, c.MutexInitial):
            self.value(initial)

    def initial_value(self, variable: Variable, e: c.Expression) -> int:
        self.value(e)
        try:
            found = constant(e)
        except NotConstant:
            self.broken(11, e.at)
            found = None
        return variable.type.wrap(found[0]) if found else 0

    def initialise(self, variable: Variable, declarator: c.Declarator) -> None:
        """A scalar has a value, and an array a list in braces: a flat one in row order, or a level for each dimension.
        The first item behind the first brace says which."""
        initial = declarator.initial
        variable.initial = [0] * min(variable.elements(), 65_536)
        if initial is None:
            return
        if isinstance(initial, c.MutexInitial) or isinstance(initial, c.Braces) != bool(variable.lengths):
            self.broken(6, declarator.at)
            self.look_through(initial)
        elif not isinstance(initial, c.Braces):
            variable.initial = [self.initial_value(variable, initial)]
        elif isinstance(initial.items[0], c.Braces):
            self.level(variable, initial, variable.lengths, 0)
        else:
            self.level(variable, initial, [variable.elements()], 0)

    def level(self, variable: Variable, braces: c.Braces, lengths: list[int], first: int) -> None:
        """The items of one level, whose first one has this number in row order."""
        stride = 1
        for length in lengths[1:]:
            stride *= length
        for number, item in enumerate(braces.items):
            at = first + number * stride
            self.broken_if(number >= lengths[0], 11, item.at)
            if isinstance(item, c.Braces) != (len(lengths) > 1):
                self.broken(6, item.at)
                self.look_through(item)
            elif isinstance(item, c.Braces):
                self.level(variable, item, lengths[1:], at)
            elif not isinstance(item, c.MutexInitial):
                value = self.initial_value(variable, item)
                if at < len(variable.initial):
                    variable.initial[at] = value

    def local(self, words: list[str], name: str, at: int, lengths: list[int]) -> Meaning:
        """What a declarator of a block or a parameter stands for."""
        kind = plain_integer(words)
        if kind is None:
            is_object = base_of(words) in OBJECT_WORDS.values()
            self.broken_if(not is_object or "static" in words, 6, at)
            self.broken_if(is_object, 9, at)
            return UNUSABLE
        return self.new_local(Variable(name, kind, lengths, "const" in words, False))

    def new_local(self, variable: Variable) -> Variable:
        if self.function:
            self.function.locals.append(variable)
        return variable

    def declaration(self, declaration: c.Declaration) -> None:
        for declarator in declaration.declarators:
            self.weigh()
            lengths = [self.length(e) for e in declarator.lengths]
            meaning = self.local(declaration.words, declarator.name, declarator.at, lengths)
            self.declare(declarator.name, declarator.at, meaning)
            declarator.variable = meaning
            if declarator.initial is not None:
                # the name is in scope in its initialiser (6.2.1)
                self.broken_if(not isinstance(meaning, Variable) or bool(lengths), 6, declarator.at)
                assert not isinstance(declarator.initial, (c.Braces, c.MutexInitial))
                self.value(declarator.initial)

    # ---- functions

    def define(self, tree: c.Function) -> None:
        only = tree.parameters[0] if len(tree.parameters) == 1 else None
        is_none = only is not None and not only.is_pointer and only.name is None and only.words == ["void"]
        parameters = [] if is_none else tree.parameters
        types = [(None if "static" in it.words else base_of(it.words), it.is_pointer) for it in parameters]
        returns = (base_of(tree.words), tree.is_pointer)
        header = Header(tree.name, returns, types, self.first_bodies.get(tree.name))
        definition = self.bodies.get(id(tree))
        self.gives = header.gives()
        self.broken_if(not self.gives, 6, tree.name_at)
        self.declare_function(header, tree.name_at, definition)
        self.scopes.append({})
        self.function = definition
        for parameter in parameters:
            self.parameter(parameter, header.is_routine(), definition)
        if definition and tree.body:
            self.definitions.append(definition)
            definition.is_routine = header.is_routine()
            definition.returns = returns[0] if isinstance(returns[0], Integer) and not returns[1] else None
            self.loops = self.exits = 0
            for item in tree.body.items:
                self.item(item)
        self.function = None
        self.scopes.pop()

    def declare_function(self, header: Header, at: int, definition: Definition | None) -> None:
        known = self.scopes[0].get(header.name)
        if header.name in COUNTS or (known is not None and not isinstance(known, Header)):
            self.broken(5, at)
        elif known is None:
            self.scopes[0][header.name] = header
        elif isinstance(known, Header):
            self.broken_if(definition is not None and definition is not known.definition, 5, at)
            self.broken_if((known.returns, known.parameters) != (header.returns, header.parameters), 6, at)

    def parameter(self, tree: c.Parameter, is_routine: bool, definition: Definition | None) -> None:
        name = tree.name or ""
        if tree.is_pointer:
            self.broken_if(not is_routine, 6, tree.name_at)
            variable = self.new_local(Variable(name, LONG, [], False, False))
            meaning: Meaning = Pointed(variable)
        else:
            meaning = self.local(tree.words, name, tree.name_at, [])
            variable = meaning if isinstance(meaning, Variable) else Variable(name, INT, [], False, False)
        if tree.name is None:
            self.broken_if(definition is not None, 6, tree.at)
        else:
            self.declare(tree.name, tree.name_at, meaning)
        if definition:
            definition.parameters.append(variable)

    # ---- statements

    def item(self, item: c.Declaration | c.Statement) -> None:
        if isinstance(item, c.Declaration):
            self.declaration(item)
        else:
            self.statement(item)

    def scoped(self, items: list[c.Declaration | c.Statement]) -> None:
        self.scopes.append({})
        for item in items:
            self.item(item)
        self.scopes.pop()

    def statement(self, tree: c.Statement) -> None:
        self.weigh()
        if isinstance(tree, c.Block):
            self.scoped(tree.items)
        elif isinstance(tree, (c.Assign, c.Step, c.CallStatement)):
            self.simple(tree)
        elif isinstance(tree, c.Jump):
            outside = self.loops == 0 if tree.word == "continue" else self.exits == 0
            self.broken_if(outside, 10, tree.at)
        elif isinstance(tree, c.If):
            self.condition(tree.condition)
            self.statement(tree.consequent)
            if tree.alternative is not None:
                self.statement(tree.alternative)
        elif isinstance(tree, c.While):
            self.condition(tree.condition)
            self.turning(tree.body)
        elif isinstance(tree, c.DoWhile):
            self.turning(tree.body)
            self.condition(tree.condition)
        elif isinstance(tree, c.For):
            self.for_loop(tree)
        elif isinstance(tree, c.Switch):
            self.switch(tree)
        elif isinstance(tree, c.Return):
            self.returned(tree)

    def turning(self, body: c.Statement) -> None:
        self.loops, self.exits = self.loops + 1, self.exits + 1
        self.statement(body)
        self.loops, self.exits = self.loops - 1, self.exits - 1

    def for_loop(self, tree: c.For) -> None:
        """The head has a scope of its own (6.8.5)."""
        self.scopes.append({})
        if isinstance(tree.first, c.Declaration):
            self.declaration(tree.first)
        elif tree.first is not None:
            self.weigh()
            self.simple(tree.first)
        if tree.condition is not None:
            self.condition(tree.condition)
        if tree.last is not None:
            self.weigh()
            self.simple(tree.last)
        self.turning(tree.body)
        self.scopes.pop()

    def switch(self, tree: c.Switch) -> None:
        """Each case is a constant expression, converted to the promoted type of the operand (6.8.4.2)."""
        tree.type = self.value(tree.operand).promoted()
        seen: set[int | None] = set()
        self.exits += 1
        for item in tree.body:
            if isinstance(item, c.Label):
                self.weigh()
                self.label(item, tree.type, seen)
            else:
                self.statement(item)
        self.exits -= 1

    def label(self, label: c.Label, kind: Integer, seen: set[int | None]) -> None:
        if label.value is None:
            self.broken_if(None in seen, 5, label.at)
            seen.add(None)
            return
        self.value(label.value)
        try:
            found = constant(label.value)
        except NotConstant:
            self.broken(11, label.value.at)
            return
        if found:
            label.number = kind.wrap(found[0])
            self.broken_if(label.number in seen, 5, label.value.at)
            seen.add(label.number)

    def returned(self, tree: c.Return) -> None:
        value = tree.value
        is_zero = isinstance(value, c.Constant) and value.value is not None and value.value[0] == 0
        form = "nothing" if value is None else "pointer" if isinstance(value, c.Pointer) or is_zero else "integer"
        fits = not self.gives or form == self.gives or (is_zero and self.gives == "integer")
        self.broken_if(not fits, 6, tree.at)
        if isinstance(value, c.Pointer):
            self.pointer(value)
        elif value is not None:
            self.value(value)

    # ---- assignments

    def simple(self, tree: c.Simple) -> None:
        """What it weighs as a statement is weighed where it stands."""
        if isinstance(tree, c.CallStatement):
            self.call_statement(tree.call)
            return
        self.target(tree.place)
        self.weigh(int(isinstance(tree, c.Step) or tree.operator != "="))
        if isinstance(tree, c.Assign):
            self.value(tree.right)

    def target(self, place: c.Place) -> None:
        meaning = place.meaning = self.look_up(place.name)
        self.indices(place)
        if isinstance(meaning, Variable):
            self.broken_if(meaning.is_const or len(meaning.lengths) != len(place.indices), 6, place.name_at)
        elif meaning is not UNUSABLE:
            self.broken(4 if meaning is None else 6, place.name_at)

    # ---- expressions

    def indices(self, place: c.Place) -> None:
        for index in place.indices:
            self.weigh()
            self.value(index)

    def condition(self, e: c.Expression) -> None:
        """Operands that &&, || and ! join from the top."""
        if isinstance(e, c.Unary) and e.operator == "!":
            self.weigh()
            self.condition(e.operand)
        elif isinstance(e, c.Binary) and e.operator in ("&&", "||"):
            self.weigh()
            self.condition(e.left)
            self.condition(e.right)
        else:
            self.value(e)

    def value(self, e: c.Expression) -> Integer:
        """The type of an expression."""
        if isinstance(e, c.Constant):
            self.broken_if(e.value is None, 11, e.constant_at)
            return e.value[1] if e.value else INT
        if isinstance(e, c.Place):
            return self.object_value(e)
        if isinstance(e, c.Call):
            return self.call(e, True)
        self.weigh()
        if isinstance(e, c.Unary):
            kind = self.value(e.operand).promoted()
            e.type = INT if e.operator == "!" else kind
        elif isinstance(e, c.Cast):
            self.cast(e)
        elif isinstance(e, c.Choice):
            self.condition(e.condition)
            e.type = usual(self.value(e.first), self.value(e.second))
        elif e.operator in ("&&", "||"):
            self.condition(e.left)
            self.condition(e.right)
        else:
            a, b = self.value(e.left), self.value(e.right)
            e.type = INT if is_comparison(e.operator) else working_type(e.operator, a, b)
        return e.type

    def cast(self, e: c.Cast) -> None:
        kind = plain_integer(e.words)
        self.broken_if(kind is None, 6, e.words_at)
        e.type = kind or INT
        operand = e.operand
        if isinstance(operand, c.Place) and not operand.indices and kind == LONG:
            operand.meaning = self.look_up(operand.name)
            if isinstance(operand.meaning, Pointed):
                return
        self.value(operand)

    def object_value(self, place: c.Place) -> Integer:
        meaning = place.meaning = self.look_up(place.name)
        self.indices(place)
        if isinstance(meaning, Variable):
            self.broken_if(len(meaning.lengths) != len(place.indices), 6, place.name_at)
            return meaning.type
        if isinstance(meaning, Pointed) and not place.indices:
            self.broken(9, place.name_at)
        elif meaning is not UNUSABLE:
            self.broken(4 if meaning is None else 6, place.name_at)
        return INT

    # ---- calls

    def call(self, call: c.Call, is_value: bool) -> Integer:
        """A call of a function of the text, or of a name that is none; as a value also one of the library."""
        meaning = call.meaning = self.look_up(call.name)
        at = call.name_at
        if isinstance(meaning, Header):
            self.function_called(meaning, call, is_value)
            for argument in call.arguments:
                self.value_argument(argument)
            return meaning.returns[0] if isinstance(meaning.returns[0], Integer) else INT
        if isinstance(meaning, Library):
            self.broken(10, at)
            self.library_called(meaning, call)
        elif meaning is not UNUSABLE:
            self.broken(4 if meaning is None else 6, at)
        for argument in call.arguments:
            self.look_at(argument)
        return INT

    def function_called(self, header: Header, call: c.Call, is_value: bool) -> None:
        at, definition = call.name_at, header.definition
        self.broken_if(definition is None, 4, at)
        self.broken_if(is_value and header.returns == ("void", False), 6, at)
        self.broken_if(len(call.arguments) != len(header.parameters), 7, at)
        self.broken_if(header.is_main() or header.is_routine(), 9, at)
        if definition and self.function:
            self.weigh(len(call.arguments))
            self.function.calls.append(definition)
            self.call_sites.append((self.function, definition, at))

    def library_called(self, library: Library, call: c.Call) -> None:
        count = COUNTS[library.name]
        self.broken_if(count not in (-1, len(call.arguments)), 7, call.name_at)
        is_own = self.function is not None and self.gives == "pointer"
        self.broken_if(library.name == "pthread_exit" and not is_own, 9, call.name_at)

    def call_statement(self, call: c.Call) -> None:
        meaning = call.meaning = self.look_up(call.name)
        if not isinstance(meaning, Library):
            self.call(call, False)
            return
        self.library_called(meaning, call)
        arguments = call.arguments
        if meaning.name == "printf":
            self.printed(call)
        elif len(arguments) != COUNTS[meaning.name]:
            for argument in arguments:
                self.look_at(argument)
        elif meaning.name == "pthread_create":
            self.create(*arguments)
        elif meaning.name == "pthread_join":
            self.thread_argument(arguments[0])
            self.null_argument(arguments[1])
        elif meaning.name == "pthread_exit":
            self.pointer_argument(arguments[0])
        else:
            self.address_argument("mutex" if "mutex" in meaning.name else "barrier", arguments[0])
            if len(arguments) > 1:
                self.null_argument(arguments[1])
            if len(arguments) > 2:
                self.value_argument(arguments[2])

    def printed(self, call: c.Call) -> None:
        if self.function:
            self.function.prints += 1
        if not call.arguments:
            self.broken(13, call.name_at)
            return
        first, *values = call.arguments
        kinds = conversions(first.text) if isinstance(first, c.Text) else None
        self.broken_if(kinds is None or len(kinds) != len(values) or len(values) > 4, 13, first.at)
        self.look_at(first)
        for value in values:
            self.value_argument(value)

    def look_at(self, argument: c.Argument) -> None:
        """An argument of another form than the call has there."""
        if isinstance(argument, c.Address):
            self.indices(argument.place)
        elif isinstance(argument, c.Pointer):
            self.pointer(argument)
        elif not isinstance(argument, c.Text):
            self.value(argument)

    def refused(self, argument: c.Argument) -> None:
        self.broken(6, argument.at)
        self.look_at(argument)

    def value_argument(self, argument: c.Argument) -> None:
        if isinstance(argument, (c.Text, c.Address, c.Pointer)):
            self.refused(argument)
        else:
            self.value(argument)

    def null_argument(self, argument: c.Argument) -> None:
        if not isinstance(argument, c.Pointer) or argument.operand is not None:
            self.refused(argument)

    def pointer(self, pointer: c.Pointer) -> None:
        if pointer.operand is not None:
            self.value(pointer.operand)

    def pointer_argument(self, argument: c.Argument) -> None:
        if isinstance(argument, c.Pointer):
            self.pointer(argument)
        else:
            self.refused(argument)

    def object_place(self, kind: str, place: c.Place, at: int) -> Thing | None:
        """A place of an object of the kind, in an argument that begins there."""
        meaning = place.meaning = self.look_up(place.name)
        self.indices(place)
        if isinstance(meaning, Thing) and meaning.kind == kind:
            self.broken_if(len(meaning.lengths) != len(place.indices), 6, place.name_at)
            return meaning
        if meaning is None:
            self.broken(4, place.name_at)
        elif meaning is not UNUSABLE:
            self.broken(6, at)
        return None

    def address_argument(self, kind: str, argument: c.Argument) -> Thing | None:
        if isinstance(argument, c.Address):
            return self.object_place(kind, argument.place, argument.at)
        self.refused(argument)
        return None

    def thread_argument(self, argument: c.Argument) -> Thing | None:
        if isinstance(argument, c.Place):
            return self.object_place("thread", argument, argument.at)
        self.refused(argument)
        return None

    def create(self, thread: c.Argument, attributes: c.Argument, routine: c.Argument, value: c.Argument) -> None:
        thing = self.address_argument("thread", thread)
        self.null_argument(attributes)
        definition = self.routine_argument(routine)
        self.pointer_argument(value)
        if thing and definition and isinstance(routine, c.Place):
            self.creations.append((thing, definition, routine.name_at))

    def routine_argument(self, argument: c.Argument) -> Definition | None:
        if isinstance(argument, c.Place) and not argument.indices:
            header = argument.meaning = self.look_up(argument.name)
            if isinstance(header, Header):
                self.broken_if(not header.is_routine(), 6, argument.at)
                self.broken_if(header.definition is None, 4, argument.name_at)
                return header.definition
            if header is None:
                self.look_at(argument)
                return None
        self.refused(argument)
        return None


def resolved(text: str) -> Program:
    """The program of a text whose characters are its bytes; Refused where it has none."""
    return Rules(c.read(text)).program()


def built(text: str) -> str:
    """How the line of a build begins, or the whole line of a refusal."""
    try:
        program = resolved(text)
    except Refused as why:
        return f"hls: refused {why}\n"
    return f"hls: built, {program.threads()} threads, weight {program.weight()}, "
