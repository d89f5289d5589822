"""Why no program goes on with the token at a place (E3). The rules stand in the order in which they are tried."""
from __future__ import annotations

import difflib
from typing import Callable

from driver.not_taken import NAMES, TYPES, WORDS
from driver.view import ASSIGNMENTS, CONTROL_WORDS, LABELS, OPERATORS, Answer, View, here, wrong

POINTER = "a global array, and an index as the parameter"
PAIRS = {"(": ")", "[": "]", "{": "}"}
SEPARATE = "a statement of its own for each"


def at_end(view: View) -> Answer | None:
    """The text ends before a block or a statement does."""
    if view.at < len(view.tokens):
        return None
    last = len(view.tokens) - 1
    if last < 0:
        return Answer(0, "there is no program in the text", "`int main(void) { .. }`", lead="")
    blocks = [k for k in view.opened(view.at) if view.word(k) == "{"]
    if not blocks:
        return Answer(
            view.place(last), "the text ends inside of a declaration", "a `;` or a block at its end", True, ""
        )
    left = next((k for k in reversed(range(last)) if is_left_behind(view, k)), blocks[0])
    what = f"a `}}` is missing at the end of the text, for the `{{` of line {view.line(left)}"
    return Answer(view.place(last), what, "a `}` for each `{`", True, "")


def is_left_behind(view: View, k: int) -> bool:
    """Whether a `{` is closed further to the left than its line begins: it is this one whose `}` is missing."""
    if view.word(k) != "{" or view.closing(k) >= len(view.tokens):
        return False
    return view.line(view.closing(k)) != view.line(k) and indent(view, view.closing(k)) < indent(view, k)


def indent(view: View, k: int) -> int:
    line = view.text[view.text.rfind("\n", 0, view.place(k)) + 1 :]
    return len(line) - len(line.lstrip(" \t"))


def word_not_taken(view: View) -> Answer | None:
    """A word of C that the profile has not, at the place or before it in the statement."""
    for k in [view.at, *range(view.start(view.at), view.at)]:
        if view.word(k) in WORDS and view.kind(k) == "name":
            what, write = WORDS[view.word(k)]
            return Answer(view.place(k), what, write)
    return None


def main_arguments(view: View) -> Answer | None:
    around = [k for k in view.opened(view.at) if view.word(k) == "("]
    if view.is_inside(view.at) or not around or view.word(around[0] - 1) != "main":
        return None
    return Answer(view.place(around[0] + 1), "arguments of `main`", "`int main(void)`, and constants in the text")


def unknown_type(view: View) -> Answer | None:
    """A name where a type is wanted: at the place, or before it, where the name was read as that of what is
    declared."""
    for k in (view.at, view.at - 1):
        name, follows = view.word(k), view.word(k + 1)
        if not view.is_name(k) or view.declaration(name, k) is not None or not begins_declaration(view, k):
            continue
        if name not in TYPES and not (view.is_name(k + 1) or (follows == "*" and view.is_name(k + 2))):
            continue
        if name not in TYPES and view.begins_line(k + 1):
            continue
        told, header = TYPES.get(name, ("a type of the profile: `int`, `unsigned long` and so on", ""))
        write = f"{told}, or `#include <{header}>`, which hlsc takes" if header else told
        return Answer(view.place(k), f"unknown type `{name}`", write, lead="")
    return None


def begins_declaration(view: View, k: int) -> bool:
    """Whether a declaration, a parameter or a cast may begin with the token."""
    before = view.word(k - 1) if k else ";"
    if before in (";", "{", "}", "(", ":", "static", "const", "unsigned", "signed"):
        return True
    return before == "," and any(view.word(it) == "(" for it in view.opened(k))


def array_parameter(view: View) -> Answer | None:
    around = view.opened(view.at)
    if view.word(view.at) != "[" or view.is_inside(view.at) or not around or view.word(around[-1]) != "(":
        return None
    return Answer(view.place(view.at - 1), f"an array as a parameter, `{view.word(view.at - 1)}[]`", POINTER)


def array_form(view: View) -> Answer | None:
    """A fourth dimension, or brackets without a length or an index."""
    word, before = view.word(view.at), view.word(view.at - 1)
    if word == "[" and before == "]":
        return here(view, "a fourth dimension", "three: two of them in one, `a[i * 8 + j][k][l]` for `a[i][j][k][l]`")
    if word == "[" and before in ("{", ","):
        return Answer(
            view.place(view.at), "an initialiser for an element by its number", "all values from the first on"
        )
    if word == "]" and before == "[":
        return Answer(
            view.place(view.at - 1),
            "an array without a length, `[]`",
            "the length in the brackets, numbers in the braces",
        )
    return None


def initialiser(view: View) -> Answer | None:
    """Braces where an object of a block, or a scalar, begins with them."""
    word, before = view.word(view.at), view.word(view.at - 1)
    if word == "{" and before in ASSIGNMENTS:
        if view.is_inside(view.at) and view.word(view.at - 2) == "]":
            return Answer(
                view.place(view.at), "an initialiser of a local array", "assignments to its elements, or a global array"
            )
        return here(view, "a list in braces here", "one value for a scalar, a list for a global array")
    if word == "{" and before in ("{", ",", "(", ")"):
        write = "each value by itself: braces stand round the values of a global array alone"
        return here(view, "values in braces here", write)
    if word == "}" and before == "{":
        return Answer(view.place(view.at - 1), "an empty list", "`{0}`: globals begin at 0")
    if word == "PTHREAD_MUTEX_INITIALIZER":
        return Answer(
            view.place(view.at),
            "`PTHREAD_MUTEX_INITIALIZER` here",
            "`pthread_mutex_init(&m[i], NULL);` for each mutex of an array",
        )
    return None


def switch_form(view: View) -> Answer | None:
    """What a `switch` has elsewhere than C of the profile: braces, then groups of labels and statements."""
    k = view.at
    if view.heads(k) == "switch":
        return here(view, "a `switch` without braces", "`switch (x) { case 1: .. }`")
    around = view.opened(k)
    if not around or not view.is_switch(around[-1]) or view.word(k) in LABELS | {"}"}:
        return None
    if k == around[-1] + 1:
        what = "declaration" if view.is_type(k) else "statement"
        write = f"the {what} before the `switch`, or behind a label: no way leads to it here"
        return here(view, f"a {what} before the first label of a `switch`", write)
    if view.is_type(k) and view.start(k) == k:
        return here(view, "a declaration in the braces of a `switch`", "a block round it: `case 1: { int x; .. }`")
    return None


def label_form(view: View) -> Answer | None:
    """A `case` without a value, or a label without its `:`."""
    first = view.start(view.at)
    if view.word(first) not in LABELS or first == view.at:
        return None
    if view.word(view.at - 1) == "case":
        return wrong(view, "a value is missing behind `case`", "`case 1:`")
    if view.word(view.at) in OPERATORS | {"++", "--", ")"} or view.word(view.at - 1) in OPERATORS:
        return None
    last = view.at - 1
    return Answer(view.place(last), f"a `:` is missing behind `{view.word(last)}`", "`case 1:`, `default:`", True, "")


def misplaced_label(view: View) -> Answer | None:
    """A label elsewhere than right in the braces of a `switch`, where a statement might begin."""
    word, before = view.word(view.at), view.word(view.at - 1)
    if word not in LABELS or not (before in (";", "{", "}", ":", "else", "do", "") or view.heads(view.at)):
        return None
    if view.switch(view.at) is None:
        return wrong(view, f"a `{word}` outside of a `switch`", "each label in the braces of its `switch`")
    write = "each label right in the braces of its `switch`, in no block, loop or `if` within"
    return here(view, f"a `{word}` inside of another statement of its `switch`", write)


def text_literal(view: View) -> Answer | None:
    if view.kind(view.at) != "string":
        return None
    if view.kind(view.at - 1) == "string":
        return here(view, "two strings side by side", "one string")
    return Answer(
        view.place(view.at), "a string outside of `printf`", "numbers: a global array with a list of them in braces"
    )


def pointer(view: View) -> Answer | None:
    """A `*` or a `&` that is no operator of two operands."""
    word = view.word(view.at)
    if word not in ("*", "&") or view.ends_operand(view.at - 1) and not is_cast(view):
        return None
    if word == "&":
        return here(view, "an address, with `&`", POINTER)
    if not view.is_type(view.at - 1) and view.word(view.at - 1) != "*":
        return accessed(view)
    if view.word(view.at + 1) in (")", "*"):
        return here(view, "a cast to a pointer", "`(void *)(long)i` in a create, `(long)p` in a start routine")
    statement = [view.word(k) for k in range(view.at, view.stop(view.at))]
    taken = next((it for it in statement if it in ("malloc", "calloc", "realloc")), "")
    return here(
        view, f"a pointer to what `{taken}` gives" if taken else "a pointer", NAMES[taken] if taken else POINTER
    )


def accessed(view: View) -> Answer:
    """What `*p` stands for; where `p` is declared as a pointer to data it is that pointer which is not taken."""
    declared = view.declaration(view.word(view.at + 1), view.at)
    if declared is None or view.word(declared - 1) != "*" or view.word(declared - 2) == "void":
        return here(view, "an access by a pointer, with `*`", "an element of a global array, by its index")
    is_parameter = any(view.word(k) == "(" for k in view.opened(declared))
    what = f"a pointer{' as a parameter' * is_parameter}, `*{view.word(declared)}`"
    return Answer(view.place(declared - 1), what, POINTER)


def is_cast(view: View) -> bool:
    """Whether a `)` before the place closes a cast."""
    opened = next((k for k in range(view.at) if view.word(k) == "(" and view.closing(k) == view.at - 1), None)
    return opened is not None and view.is_type(opened + 1)


def change_inside(view: View) -> Answer | None:
    """An assignment, `++` or `--` as a part of an expression."""
    word, first = view.word(view.at), view.start(view.at)
    if word in ("++", "--"):
        is_new_line = view.begins_line(view.at) and view.opened(view.at)[-1:] == view.opened(first)[-1:]
        return None if is_new_line else here(view, f"`{word}` inside of an expression", SEPARATE)
    if word not in ASSIGNMENTS or not view.ends_operand(view.at - 1) or first == view.at - 1:
        return None
    if view.word(view.at - 1) == "]" and view.closing(first + 1) == view.at - 1:
        return None
    return here(view, f"an assignment inside of an expression, with `{word}`", SEPARATE)


def comma(view: View) -> Answer | None:
    if view.word(view.at) != "," or not view.ends_operand(view.at - 1):
        return None
    return Answer(
        view.place(view.at),
        "the comma operator",
        SEPARATE + "; in the head of a `for` the rest before it or at its end",
    )


def label(view: View) -> Answer | None:
    if view.word(view.at) != ":":
        return None
    if view.is_name(view.at - 1) and view.start(view.at) == view.at - 1:
        return Answer(view.place(view.at - 1), f"a label, `{view.word(view.at - 1)}`", "a loop with `break`, or a flag")
    return here(view, "a `:` here", "the statement without it")


def inner_function(view: View) -> Answer | None:
    k = view.at
    if view.word(k) != "(" or not view.is_inside(k) or not view.is_name(k - 1) or not view.is_type(k - 2):
        return None
    block = next(it for it in view.opened(k) if view.word(it) == "{")
    what = f"a function inside of another one, `{view.word(k - 1)}`"
    write = f"each function at file scope; or a `}}` is missing before it, for the `{{` of line {view.line(block)}"
    return Answer(view.place(k - 1), what, write)


def untyped_function(view: View) -> Answer | None:
    if view.is_inside(view.at) or not view.is_name(view.at) or view.word(view.at + 1) != "(":
        return None
    if view.start(view.at) != view.at:
        return None
    return Answer(
        view.place(view.at),
        f"a function without the type of its result, `{view.word(view.at)}`",
        "`int` or `void` before its name",
    )


def untyped_parameter(view: View) -> Answer | None:
    around = view.opened(view.at)
    if view.is_inside(view.at) or not around or view.word(around[-1]) != "(" or not view.is_name(view.at):
        return None
    return Answer(
        view.place(view.at),
        f"a parameter without a type, `{view.word(view.at)}`",
        "its type before each parameter, as `int a, int b`",
    )


def dropped_value(view: View) -> Answer | None:
    """`(void)x;`, or another expression in the place of a statement."""
    first = view.start(view.at)
    if view.word(first) == "(" and first == view.at and view.word(first + 1) == "void":
        return Answer(view.place(first), "a value that is dropped, with `(void)`", "nothing: an object may stay unused")
    if (
        not view.is_inside(view.at)
        or view.is_type(first)
        or view.word(first) in ("if", "while", "for", "do", "else", "return", "switch", *LABELS)
    ):
        return None
    is_operator = view.word(view.at) in OPERATORS | {"&&", "||", "?", ";"} - ASSIGNMENTS - {"(", "[", ":"}
    called = view.word(first + 1) == "(" and view.closing(first + 1) == view.at - 1
    indexed = view.word(first + 1) == "[" and view.closing(first + 1) == view.at - 1
    alone = view.at in (first, first + 1) and (view.ends_operand(first) or first == view.at)
    if (is_operator and (called and view.word(view.at) != ";" or indexed or alone)) or (
        first == view.at and view.kind(first) in ("number", "mark")
    ):
        return Answer(view.place(first), "an expression as a statement", "an assignment, or the call alone")
    return None


def missing_semicolon(view: View) -> Answer | None:
    """What ends a statement stands before the place, and what begins one at it."""
    last, word = view.at - 1, view.word(view.at)
    ends = view.ends_operand(last) or view.word(last) in ("break", "continue", "return", "NULL")
    if not ends or not (view.kind(view.at) in ("name", "number") or word in ("}", "{", "++", "--")):
        return None
    meant = difflib.get_close_matches(view.word(last), sorted(CONTROL_WORDS), 1, 0.7)
    if meant and view.is_name(last) and view.start(view.at) == last and view.declaration(view.word(last)) is None:
        return Answer(
            view.place(last), f"`{view.word(last)}`, which is no word of C", f"`{meant[0]}`, if that is meant", lead=""
        )
    if not view.begins_line(view.at) and word != "}" and view.is_name(last) and view.is_name(view.at):
        return wrong(view, f"`{word}` behind `{view.word(last)}`", "an operator or a `;` between them")
    what = f"a `;` is missing behind `{view.word(last)}`"
    return Answer(view.place(last), what, "a `;` at the end of each statement", True, "")


def unfinished_choice(view: View) -> Answer | None:
    """A `?` without its `:`."""
    around, word = view.opened(view.at), view.word(view.at)
    if not view.ends_operand(view.at - 1) or word not in (";", ",", ")", "]", "}"):
        return None
    first = max(view.start(view.at), around[-1] + 1 if around else 0)
    marks = [k for k in range(first, view.at) if view.word(k) in ("?", ":") and view.opened(k) == around]
    if 2 * sum(view.word(k) == "?" for k in marks) <= len(marks):
        return None
    return wrong(view, f"a `:` is missing before `{word}`, for the `?` of line {view.line(marks[0])}", "`c ? a : b`")


def missing_bracket(view: View) -> Answer | None:
    around, word = view.opened(view.at), view.word(view.at)
    if word in (";", "{", "}") and around and view.word(around[-1]) in ("(", "["):
        opened = view.word(around[-1])
        closed = PAIRS[opened]
        return wrong(
            view,
            f"a `{closed}` is missing, for the `{opened}` of line {view.line(around[-1])}",
            f"a `{closed}` before `{word}`",
        )
    if view.word(view.at - 1) in ("if", "while", "for", "switch") and word != "(":
        return wrong(view, f"a `(` is missing behind `{view.word(view.at - 1)}`", "the condition in parentheses")
    if word in (")", "]", "}") and PAIRS.get(view.word(around[-1]) if around else "") != word:
        return wrong(view, f"a `{word}` that closes nothing", "the text without it")
    return None


def missing_operand(view: View) -> Answer | None:
    before, word = view.word(view.at - 1), view.word(view.at)
    if before in OPERATORS and word in OPERATORS | {")", "]", ";", "}"}:
        return wrong(view, f"an operand is missing between `{before}` and `{word}`", "a value between them")
    return None


def stray_else(view: View) -> Answer | None:
    if view.word(view.at) != "else":
        return None
    return wrong(
        view, "an `else` without an `if` before it", "`if (c) { .. } else { .. }`, with no `;` before the `else`"
    )


def other(view: View) -> Answer:
    behind = f" behind `{view.word(view.at - 1)}`" if view.at else ""
    return here(view, f"`{view.word(view.at)}`{behind}", "what docs/USING.md lists as taken")


RULES: tuple[Callable[[View], Answer | None], ...] = (
    *(at_end, word_not_taken, main_arguments, unknown_type, array_parameter, array_form, initialiser, text_literal),
    *(switch_form, misplaced_label, label_form, inner_function, label, pointer, stray_else, unfinished_choice),
    *(missing_bracket, dropped_value, change_inside, missing_semicolon, untyped_function, untyped_parameter, comma),
    missing_operand,
)


def explained(view: View) -> Answer:
    """What is refused at the place, and what to write for it."""
    return next((answer for rule in RULES for answer in [rule(view)] if answer), other(view))
