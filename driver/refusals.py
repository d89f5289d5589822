"""What a refusal of hls means at its place: what is not taken there, and what to write for it.

hls tells the rule and the byte, which is proved. The words here are read off the tokens round that place, and are no
part of what is proved."""
from __future__ import annotations

import difflib
import math
import re
from typing import Callable

from driver import syntax_faults, token_faults
from driver.not_taken import LIMIT_NAMES, LIMITS, NAMES, TYPES
from driver.view import ASSIGNMENTS, Answer, View, here, wrong

CONVERSIONS = '`%d %u %ld %lu %lld %llu %%`, without widths, and the escapes `\\n \\t \\\\ \\"`'
MOST_VALUES = 4
CONSTANTS = "numbers, characters, casts and operators, without `&&`, `||`, `?:` and calls"
THREAD_OBJECTS = ("pthread_t", "pthread_mutex_t", "pthread_barrier_t")
ARGUMENTS = {
    "pthread_create": (
        "`&t` or `&t[i]` for a global `pthread_t`",
        "`NULL`",
        "the name of a function `void *f(void *p)`",
        "`NULL` or `(void *)(long)i`",
    ),
    "pthread_join": (
        "a global `pthread_t` or its element, without `&`",
        "`NULL`: a thread's result goes into an element of a global array",
    ),
    "pthread_exit": ("`NULL` or `(void *)(long)i`",),
    "pthread_mutex_init": ("`&m` or `&m[i]` for a global `pthread_mutex_t`", "`NULL`"),
    "pthread_barrier_init": ("`&b` or `&b[i]` for a global `pthread_barrier_t`", "`NULL`", "the count, an integer"),
    **dict.fromkeys(
        ("pthread_mutex_lock", "pthread_mutex_unlock", "pthread_mutex_destroy"),
        ("`&m` or `&m[i]` for a global `pthread_mutex_t`",),
    ),
    **dict.fromkeys(
        ("pthread_barrier_wait", "pthread_barrier_destroy"), ("`&b` or `&b[i]` for a global `pthread_barrier_t`",)
    ),
}


# ---- E4, E5: names


def unknown_name(view: View) -> Answer:
    name = view.word(view.at)
    if name in NAMES:
        return here(view, f"`{name}`", NAMES[name])
    if name.endswith(LIMIT_NAMES):
        header = "stdint.h" if re.match(r"U?INT(8|16|32|64|PTR|MAX)_|SIZE_", name) else "limits.h"
        return here(view, f"`{name}`", f"`#include <{header}>`, which hlsc takes, or its number")
    later = view.declaration(name)
    if later is not None and later > view.at:
        return wrong(
            view,
            f"`{name}` before its declaration in line {view.line(later)}",
            "the declaration, or a prototype, first",
        )
    if name in TYPES:
        return wrong(view, f"unknown type `{name}`", TYPES[name][0])
    known = {it.text for k, it in enumerate(view.tokens[: view.at]) if view.is_name(k) and it.text != name}
    near = difflib.get_close_matches(name, sorted(it for it in known if view.declaration(it, view.at) is not None), 1)
    if near:
        return wrong(view, f"`{name}`, which is not declared", f"`{near[0]}`, if that is meant")
    if view.word(view.at + 1) == "(":
        write = "its definition in the same text: `printf` and the pthread calls alone are known without one"
        return wrong(view, f"`{name}`, a function that is not defined", write)
    return wrong(view, f"`{name}`, which is not declared", "its declaration before it")


def declared_twice(view: View) -> Answer:
    name = view.word(view.at)
    if name == "default" or view.word(view.start(view.at)) == "case":
        return label_twice(view)
    if name == "printf" or name.startswith("pthread_"):
        return here(view, f"a declaration of `{name}`", "nothing: it is known without one")
    first = view.declaration(name, view.at)
    where = f", first in line {view.line(first)}" if first is not None else ""
    return wrong(view, f"a second declaration of `{name}`{where}", "another name, or one declaration")


def label_twice(view: View) -> Answer:
    """A label that stands before it in the same `switch`. Of two values that are spelled in two ways the line of the first
    is not told."""
    word = "default" if view.word(view.at) == "default" else "case"
    values = [value(view, k) for k in labels(view, word)]
    number = value(view, view.at - (word == "case"))
    before = [k for k, other in zip(labels(view, word), values) if k < view.at - 1 and other == number]
    where = f", first in line {view.line(before[0])}" if before else ", as converted to its type"
    if word == "default":
        return wrong(view, f"a second `default` in one `switch`{where}", "one `default`")
    what = f"a second `case` of this value in one `switch`{where}"
    return wrong(view, what, "each value once; labels side by side, `case 1: case 2:`, for one group")


def labels(view: View, word: str) -> list[int]:
    """The labels of this word in the braces of the `switch` round the place."""
    opened = view.opened(view.at)
    around = [k for k in opened if view.word(k) == "{"][-1:]
    closed = view.closing(around[0]) if around else 0
    inside = range(around[0] + 1, closed) if around else range(0)
    return [k for k in inside if view.word(k) == word and view.opened(k)[-1:] == around]


def value(view: View, label: int) -> str:
    """How the value of a label is written, a number in decimal."""
    words = [view.word(k) for k in range(label + 1, view.colon(label)) if view.word(k) not in ("(", ")")]
    return str(int_of(words[0])) if len(words) == 1 and words[0][:1].isdigit() else " ".join(words)


# ---- E6: kinds


def dimensions(view: View, name: int) -> list[int]:
    """The first bracket of each dimension behind a name."""
    found, k = [], name + 1
    while view.word(k) == "[" and k < len(view.tokens):
        found.append(k)
        k = view.closing(k) + 1
    return found


def initialised(view: View) -> tuple[int, list[int]] | None:
    """Of a place in the braces of an initialiser at file scope the name that is declared, and the braces round it."""
    braces = [k for k in view.opened(view.at) if view.word(k) == "{"]
    if not braces or view.word(braces[0] - 1) != "=":
        return None
    name = braces[0] - 2
    while view.word(name) == "]":
        name = next(k for k in range(name) if view.word(k) == "[" and view.closing(k) == name) - 1
    return name, braces


def shape(view: View) -> Answer | None:
    """A token that departs from the form in braces that the first item has."""
    found = initialised(view)
    if found is None:
        return None
    count = len(dimensions(view, found[0]))
    by_levels = view.word(found[1][0] + 1) == "{"
    form = "a level of braces for each dimension, as `{{1, 2}, {3, 4}}`, or one list without braces in it"
    if view.word(view.at) == "{" and not by_levels:
        return here(view, "braces within a list whose first value has none", form)
    if view.word(view.at) == "{":
        return here(view, f"more levels of braces than `{view.word(found[0])}` has dimensions", form)
    if by_levels and len(found[1]) < count:
        return here(view, "a value where a list in braces is due", form)
    return None


def declared_form(view: View) -> Answer | None:
    """An initialiser of another form than what is declared with it, or a thread object of two dimensions."""
    name, first = view.word(view.at), view.start(view.at)
    if not view.is_name(view.at) or not view.declares(view.at):
        return None
    words, brackets = [view.word(k) for k in range(first, view.at)], dimensions(view, view.at)
    kind = next((it for it in THREAD_OBJECTS if it in words), "")
    end = view.closing(brackets[-1]) + 1 if brackets else view.at + 1
    if kind and len(brackets) > 1:
        return here(view, f"a `{kind}` of {len(brackets)} dimensions", f"one dimension, `{name}[i * 8 + j]`")
    if view.word(end) != "=":
        return None
    if kind:
        write = "`PTHREAD_MUTEX_INITIALIZER` for one mutex, `pthread_mutex_init(&m[i], NULL);` for each of an array"
        return here(view, f"this initialiser of `{name}`", write)
    if brackets and view.is_inside(view.at):
        return here(view, "an initialiser of a local array", "assignments to its elements, or a global array")
    if brackets:
        return here(view, f"an initialiser of the array `{name}` without braces", "a list in braces, `{1, 2}`")
    if view.word(end + 1) == "{":
        return here(view, f"a list in braces for the scalar `{name}`", "one value")
    return None


def static_local(view: View) -> Answer | None:
    first = view.start(view.at)
    words = [k for k in range(first, view.at) if view.word(k) == "static"]
    if not words or not view.is_inside(view.at):
        return None
    return Answer(view.place(words[0]), "a static local", "a global")


def pointer_object(view: View) -> Answer | None:
    if view.word(view.at - 1) != "*" or not view.is_type(view.at - 2):
        return None
    around = view.opened(view.at)
    in_parameters = bool(around) and view.word(around[-1]) == "("
    is_result = view.word(view.at + 1) == "("
    what = f"a pointer{' as a parameter' if in_parameters else ' as a result' if is_result else ''}"
    return Answer(view.place(view.at - 1), f"{what}, `*{view.word(view.at)}`", syntax_faults.POINTER)


def thread_argument(view: View) -> Answer | None:
    name, number = view.call(view.at)
    if name not in ARGUMENTS or number >= len(ARGUMENTS[name]):
        return None
    ordinal = ("first", "second", "third", "fourth")[number]
    return here(view, f"this form of the {ordinal} argument of `{name}`", ARGUMENTS[name][number])


def start_routine(view: View) -> Answer | None:
    """A parameter without a name, in a definition."""
    if view.is_inside(view.at) or not view.is_type(view.at) or view.word(view.at + 1) == "(":
        return None
    around = view.opened(view.at)
    if around and view.word(around[-1]) == "(":
        write = "`void *f(void *p)` for a start routine; a name for each parameter of a definition"
        return here(view, "a parameter without a name", write)
    return None


def returned(view: View) -> Answer | None:
    if view.word(view.at) != "return":
        return None
    if view.word(view.at + 1) == ";":
        return here(view, "a `return` without a value in a function that has one", "`return value;`")
    write = "`return;` in a `void` function, `return NULL;` in a start routine; a thread's result in a global array"
    return here(view, "a `return` with this value", write)


def used_name(view: View) -> Answer:
    """A name that is used as what it is not."""
    name, follows = view.word(view.at), view.word(view.at + 1)
    k = view.declaration(name, view.at)
    words = [view.word(it) for it in range(view.start(k), k)] if k is not None else []
    is_array, is_function = (k is not None and view.word(k + 1) == it for it in ("[", "("))
    has, given = (len(dimensions(view, it)) if it is not None else 0 for it in (k, view.at))
    element = "a" + "".join(f"[{index}]" for index in "ijk"[:has])
    indices = f"{given} ind{'ex' if given == 1 else 'ices'}"
    is_const = "const" in words and (
        follows in ASSIGNMENTS | {"++", "--", "["} or view.word(view.at - 1) in ("++", "--")
    )
    uses = (
        (
            any(it in THREAD_OBJECTS for it in words),
            f"the thread object `{name}` as a number",
            "it in pthread calls alone",
        ),
        (
            is_function and follows != "(",
            f"the function `{name}` as a value",
            f"a call of it, `{name}(..)`",
        ),
        (follows == "(" and not is_function, f"a call of `{name}`, which is no function", "the name of a function"),
        (
            is_array and follows != "[",
            f"the array `{name}` without an index",
            f"`{element}`; as an argument the index alone",
        ),
        (
            is_array and given != has,
            f"the array `{name}` of {has} dimension{'s' * (has != 1)} with {indices}",
            f"an index for each dimension, `{element}`",
        ),
        (follows == "[" and not is_array, f"`{name}` with an index, which is no array", "a scalar without an index"),
        (is_const, f"a change of `{name}`, which is `const`", "an object without `const`"),
        ("*" in words, f"the pointer `{name}` in another form", "`(long)p` in a start routine"),
        ("void" in words, f"`{name}`, which has no value", "a type of integers, or the call as a statement of its own"),
    )
    other = (True, f"`{name}` as what it is not declared", "prototypes of the same types; names as they are declared")
    _, what, write = next(it for it in (*uses, other) if it[0])
    return here(view, what, write)


def wrong_kind(view: View) -> Answer:
    rules = (returned, pointer_object, static_local, thread_argument, start_routine, shape, declared_form)
    return next((answer for rule in rules for answer in [rule(view)] if answer), used_name(view))


# ---- E7 to E11


def argument_count(view: View) -> Answer:
    name = view.word(view.at)
    given = count(view, view.at + 1)
    declared = view.declaration(name)
    wanted = len(ARGUMENTS[name]) if name in ARGUMENTS else count(view, declared + 1) if declared is not None else None
    asked = f", and it takes {wanted}" if wanted is not None else ""
    what = f"a call of `{name}` with {given} argument{'s' * (given != 1)}{asked}"
    return wrong(view, what, "an argument for each parameter")


def count(view: View, opened: int) -> int:
    """How many there are between parentheses."""
    closed = view.closing(opened)
    inner = [view.word(k) for k in range(opened + 1, closed)]
    if inner in ([], ["void"]):
        return 0
    return 1 + sum(view.word(k) == "," and view.opened(k)[-1] == opened for k in range(opened + 1, closed))


def recursion(view: View) -> Answer:
    name, inside = view.word(view.at), view.function(view.at)
    what = f"`{name}`, which calls itself" if name == inside else f"a call of `{name}`, which leads back to `{inside}`"
    return here(view, f"recursion: {what}", "a loop, with an array as its stack")


def thread_rule(view: View) -> Answer:
    """Which of the rules on threads it is."""
    name, k = view.word(view.at), view.at
    kinds = [it for it in THREAD_OBJECTS if it in (view.word(i) for i in range(view.start(k), k))]
    called, number = view.call(k)
    if kinds and (view.is_inside(k) or view.opened(k)):
        return here(view, f"`{name}`, a `{kinds[0]}` that is not global", "a declaration at file scope")
    if name == "pthread_exit":
        write = "`return`, and a flag for the functions between"
        return here(view, "`pthread_exit` elsewhere than in a start routine's own body", write)
    if called == "pthread_create" and number == 2:
        return second_routine(view)
    if view.word(k + 1) == "(":
        what = "`main`" if name == "main" else f"the start routine `{name}`"
        write = "a function of its own that both call; a start routine begins by `pthread_create` alone"
        return here(view, f"a call of {what}", write)
    what = f"the argument `{name}` of a start routine, read otherwise than by `(long){name}`"
    return here(view, what, f"`(long){name}`, as in `(int)(long){name}`")


def second_routine(view: View) -> Answer:
    name = view.word(view.at)
    if name == "main":
        return here(view, "`main` as a start routine", "a function `void *f(void *p)`")
    opened = [k for k in view.opened(view.at) if view.word(k) == "("][-1]
    object_name = view.word(opened + 2)
    first = next((view.word(k) for k in range(view.at) if is_other_create(view, k, object_name, name)), "")
    other = f" beside `{first}`" if first else ""
    what = f"a second start routine, `{name}`{other}, for one object, `{object_name}`"
    return here(view, what, "a `pthread_t` or an array of them for each routine")


def is_other_create(view: View, k: int, object_name: str, name: str) -> bool:
    """Whether the token is the routine of another create of the object."""
    called, number = view.call(k)
    if called != "pthread_create" or number != 2 or not view.is_name(k) or view.word(k) == name:
        return False
    return view.word([i for i in view.opened(k) if view.word(i) == "("][-1] + 2) == object_name


def out_of_place(view: View) -> Answer:
    name = view.word(view.at)
    if name == "break":
        write = "it inside of a `while`, `do`, `for` or `switch`"
        return wrong(view, "a `break` outside of a loop or a `switch`", write)
    if name == "continue":
        leave = "; `break` leaves a `switch`" if view.switch(view.at) is not None else ""
        return wrong(view, "a `continue` outside of a loop", f"it inside of a `while`, `do` or `for`{leave}")
    return here(view, f"the result of `{name}`", "the call as a statement of its own: it does not fail")


def constant_range(view: View) -> Answer:
    around, word = [view.word(k) for k in view.opened(view.at)], view.word(view.at)
    if view.kind(view.at) == "number" and int_of(word) > (1 << 63) - 1:
        write = "at most 18446744073709551615, with a suffix `u` from 9223372036854775808 on"
        return here(view, f"the constant `{word}`, which no type holds", write)
    if view.word(view.start(view.at)) == "case":
        write = f"{CONSTANTS}; `if` and `else` for what is computed"
        return here(view, "a `case` that is not constant", write)
    if around[-1:] == ["["] and view.is_type(view.start(view.at)):
        return length(view)
    found = initialised(view)
    if found is not None:
        return listed_value(view, *found)
    return here(view, "an initialiser of a global that is not constant", "an assignment in `main`")


def listed_value(view: View, name: int, braces: list[int]) -> Answer:
    """A value of a list in braces: one more than there are elements, or one that is not constant."""
    lengths = [constant(view, k) or 0 for k in dimensions(view, name)]
    by_levels = view.word(braces[0] + 1) == "{"
    before = sum(view.word(k) == "," and view.opened(k)[-1:] == braces[-1:] for k in range(braces[-1], view.at))
    most = lengths[len(braces) - 1 : len(braces)] if by_levels else [math.prod(lengths)]
    if most and 0 < most[0] <= before:
        whole = f"`{view.word(name)}`" if not by_levels or len(braces) == 1 else "a row"
        kind, part = ("lists", "row") if view.word(view.at) == "{" else ("values", "element")
        what = f"more {kind} than the {most[0]} {part}{'s' * (most[0] != 1)} of {whole}"
        return wrong(view, what, "at most as many as its length, or a greater length")
    return here(view, "a value of a list that is not constant", f"{CONSTANTS}; an assignment in `main`")


def length(view: View) -> Answer:
    """The length of an array, which is not constant or below 1."""
    tokens = range(view.at, view.closing(view.opened(view.at)[-1]))
    inner = "".join(view.word(k) for k in tokens)
    name = next((view.word(k) for k in tokens if view.is_name(k)), "")
    if any(view.word(k) in ("?", "&&", "||") for k in tokens):
        return here(view, f"a length that is not constant, `{inner}`", CONSTANTS)
    if name:
        write = f"`#define {name} integer`, or an array of the greatest length"
        return here(view, f"a length that is not constant, `{inner}`", write)
    return here(view, f"the length `{inner}`", "a length of at least 1")


def int_of(text: str) -> int:
    try:
        return int(text.rstrip("uUlL"), 0)
    except ValueError:
        return 0


# ---- E12 to E14


def limit(view: View, told: str, has_place: bool) -> Answer:
    """What is too much, by the name of the limit."""
    found = re.fullmatch(r"(.*) (\d+), at most (\d+)", told)
    if not found:
        return Answer(view.offset, f"a limit is passed: {told}", "less of it")
    name, number = found[1], int(found[2])
    word, write = LIMITS.get(name, ("", "less of it"))
    offset = view.offset if has_place else first_of(view, word, name, number)
    held = {"one array": f"an array of {number} elements", "weight": f"a thread function of weight {number}"}
    return Answer(offset, f"{held.get(name, f'{name}: {number}')}, at most {found[3]}", write)


def first_of(view: View, word: str, name: str, number: int) -> int:
    """Where that begins which is too much, as far as the text shows it."""
    arrays = [k for k in range(len(view.tokens)) if view.word(k + 1) == "[" and view.is_type(view.start(k))]
    if name == "one array":
        arrays = [k for k in arrays if math.prod(constant(view, it) or 0 for it in dimensions(view, k)) == number]
    elif name in ("global elements", "local elements"):
        arrays = [k for k in arrays if view.is_inside(k) == (name == "local elements")]
    else:
        return next((it.offset for it in view.tokens if word and it.text == word), 0)
    return view.place(arrays[0]) if arrays else 0


def constant(view: View, opened: int) -> int | None:
    """The number between brackets, where it is one, or a product or a sum of some."""
    total, words = 0, [view.word(k) for k in range(opened + 1, view.closing(opened)) if view.word(k) not in ("(", ")")]
    for term in " ".join(words).split(" + "):
        product = 1
        for factor in term.split(" * "):
            product *= int_of(factor)
        total += product
    return total


def printing(view: View) -> Answer:
    """What a format has that is not taken, at its place in the string."""
    text = view.word(view.at)
    if view.kind(view.at) != "string":
        return here(view, "`printf` without a string as its first argument", '`printf("%d\\n", x)`')
    place = view.place(view.at)
    for found in re.finditer(r"\\(.[0-7xX]?)|%%|%[-+ #0]*[\d*]*(?:\.[\d*]*)?(?:hh?|ll?|[Lqjzt])?(.?)", text, re.DOTALL):
        if found[0].startswith("\\") and found[1][:1] not in 'nt\\"':
            return Answer(place + found.start(), f"the escape `{found[0][:2]}` in a format", CONVERSIONS)
        if found[0].startswith("%") and not re.fullmatch(r"%%|%(?:ll?)?[du]", found[0]):
            return Answer(place + found.start(), f"`{found[0]}` in a format", CONVERSIONS)
    asked = len(re.findall(r"%(?:ll?)?[du]", text.replace("%%", "")))
    given = view_values(view)
    if asked > MOST_VALUES:
        return Answer(place, f"a format of {asked} values, at most {MOST_VALUES}", "two calls of `printf`")
    what = f"{given} value{'s' * (given != 1)} for a format that asks for {asked}"
    return Answer(place, what, "as many values as `%` ask for, at most 4", lead="")


def view_values(view: View) -> int:
    opened = view.opened(view.at)
    return count(view, opened[-1]) - 1 if opened else 0


def no_main(view: View) -> Answer:
    for k in range(len(view.tokens)):
        if view.word(k) == "main" and view.word(k + 1) == "(" and not view.is_inside(k):
            return Answer(view.place(view.start(k)), "a `main` of another type", "`int main(void) { .. return 0; }`")
    return Answer(0, "there is no `main`", "`int main(void) { .. return 0; }`", lead="")


EXPLAINED: dict[str, Callable[[View], Answer]] = {
    "E2": token_faults.explained,
    "E3": syntax_faults.explained,
    "E4": unknown_name,
    "E5": declared_twice,
    "E6": wrong_kind,
    "E7": argument_count,
    "E8": recursion,
    "E9": thread_rule,
    "E10": out_of_place,
    "E11": constant_range,
    "E13": printing,
    "E14": no_main,
}


def explain(text: str, rule: str, offset: int | None, told: str) -> Answer:
    """What the refusal of a text by a rule means, at a byte or at none, by what hls tells of it."""
    view = View(text, 0 if offset is None else offset)
    if rule == "E12":
        return limit(view, told, offset is not None)
    if rule in EXPLAINED:
        return EXPLAINED[rule](view)
    write = "a loop, a function or fewer constants: the text behind the preprocessor counts"
    return (
        Answer(view.offset, f"a text {told}", write)
        if rule == "E1"
        else Answer(view.offset, told, "C of docs/USING.md")
    )
