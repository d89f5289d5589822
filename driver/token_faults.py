"""Why a place of a C text is no token of the profile (E2)."""
from __future__ import annotations

import re

from driver.not_taken import WORDS
from driver.view import Answer, View

CONDITIONALS = ("if", "ifdef", "ifndef", "else", "elif", "endif")
ASCII = "a letter of ASCII; comments may hold any bytes"
FIXED = "integers with a fixed number of fraction bits"


def directive(view: View) -> Answer | None:
    """A line that begins with `#`."""
    line = re.match(r"#[ \t]*(\w*)(?:[^\n\\]|\\.)*", view.text[view.offset :], re.DOTALL)
    if not line:
        return None
    name = line[1]
    if name == "define":
        return definition(view, line[0])
    if name in CONDITIONALS:
        return Answer(
            view.offset,
            f"a conditional directive, `#{name}`",
            "the lines that it chooses (hlsc takes it where --raw is not given)",
        )
    if name == "pragma":
        return Answer(view.offset, "a `#pragma`", "nothing: plans are made for each block without directives")
    if name == "undef":
        return Answer(view.offset, "`#undef`", "another name (hlsc takes it where --raw is not given)")
    if name == "include":
        return Answer(view.offset, "this form of `#include`", '`#include <name.h>` or `#include "name.h"`')
    return Answer(view.offset, f"the directive `#{name}`", "the text without it")


def definition(view: View, line: str) -> Answer:
    """A `#define` of anything but one integer."""
    name = re.match(r"#\s*define\s+(\w+)(\(?)[ \t]*(.*)", line, re.DOTALL)
    other = "an integer constant, or the text that it stands for at each place (hlsc takes it where --raw is not given)"
    if not name:
        return Answer(view.offset, "a `#define` without a name", "`#define NAME integer`")
    if name[2]:
        return Answer(view.offset, f"a macro with parameters, `{name[1]}`", other)
    if "\\" in line:
        return Answer(
            view.offset, f"a `#define` that goes on behind a `\\`, `{name[1]}`", "`#define NAME integer` on one line"
        )
    if re.search(rf"^[ \t]*#[ \t]*define[ \t]+{name[1]}\b", view.text[: view.offset], re.MULTILINE):
        return Answer(view.offset, f"a second `#define` of `{name[1]}`", "another name")
    value = name[3].strip()
    what = f"`{value}`, which is not one integer" if value else "nothing"
    return Answer(view.offset, f"a `#define` of `{name[1]}` as {what}", other)


def number(view: View) -> Answer | None:
    found = re.match(r"\.?\d(?:[eEpP][+-]|[\w.])*", view.text[view.offset :], re.ASCII)
    if not found:
        return None
    text = found[0]
    if re.fullmatch(r"0[bB]\w*", text):
        return Answer(view.offset, f"a binary constant, `{text}`", "hexadecimal, `0x5` for `0b101`")
    is_hexadecimal = text[:2] in ("0x", "0X")
    if "." in text or re.search(r"[pP]" if is_hexadecimal else r"[eE]", text):
        return Answer(view.offset, f"a float constant, `{text}`", FIXED)
    if re.match(r"0\d*[89]", text):
        return Answer(view.offset, f"an octal constant with an 8 or a 9, `{text}`", "the number without its leading 0")
    return Answer(
        view.offset, f"`{text}`, which is no integer constant", "digits, with a suffix of `u`, `l` and `ll` at most"
    )


def member(view: View) -> Answer | None:
    """A `.`: that of a member, or three of them."""
    if view.word(view.at) == "..." and view.word(view.start(view.at)) == "case":
        return Answer(view.offset, "a range of values, `...`", "a `case` for each value")
    if view.word(view.at) == "...":
        return Answer(view.offset, "arguments without a number, `...`", "a function of a fixed number of integers")
    if view.word(view.at) != ".":
        return None
    for k in range(view.at):
        if view.word(k) in ("struct", "union"):
            what, write = WORDS[view.word(k)]
            return Answer(view.place(k), what, write)
    return Answer(view.offset, "a member, with `.`", WORDS["struct"][1])


def quoted(view: View) -> Answer | None:
    """A string or a character."""
    text = view.word(view.at)
    if view.kind(view.at) not in ("string", "char"):
        return None
    for k, char in enumerate(text):
        if ord(char) > 126:
            return foreign(view, view.offset + k)
    if len(text) < 2 or text[-1] != text[0]:
        return Answer(view.offset, f"a {text[0]} that is not closed on its line", f"a {text[0]} at its end")
    if "\\\n" in text:
        return Answer(view.offset + text.index("\\\n"), "a line that goes on behind a `\\`", "one line")
    if text[0] == "'":
        return Answer(
            view.offset,
            f"the character constant {text}",
            "one character of ASCII, `'\\n'`, `'\\t'` or its number: `'A'` or 65",
        )
    return Answer(view.offset, "this string", 'characters of ASCII and the escapes `\\n \\t \\\\ \\"`')


def foreign(view: View, at: int) -> Answer | None:
    """A byte that is not of ASCII."""
    if at >= len(view.text) or ord(view.text[at]) < 127:
        return None
    data = view.text[at : at + 4].encode("latin-1")
    if data.startswith(b"\xef\xbb\xbf"):
        return Answer(at, "a byte order mark", "the text without it (hlsc takes it where --raw is not given)")
    char = data.decode("utf-8", errors="ignore")[:1]
    named = f"`{char}`, which is" if char else f"the byte {data[0]}, which is"
    return Answer(at, f"{named} not of ASCII", ASCII)


def other_mark(view: View) -> Answer | None:
    rest = view.text[view.offset :]
    if rest.startswith("/*"):
        return Answer(view.offset, "a comment that is not closed", "`*/` at its end")
    written = re.match(r"\\[uU]([0-9a-fA-F]{4,8})", rest)
    if written:
        # the preprocessor writes a letter so that is not of ASCII
        return Answer(view.offset, f"`{chr(int(written[1], 16))}`, which is not of ASCII", ASCII)
    if rest.startswith("\\"):
        return Answer(view.offset, "a `\\` outside of a string", "the text without it")
    if view.word(view.at) == "->":
        return Answer(view.offset, "a member, with `->`", WORDS["struct"][1])
    return None


def explained(view: View) -> Answer:
    """What is no token, and what to write for it."""
    rest = view.text[view.offset : view.offset + 1]
    for rule in (directive, number, member, quoted, lambda it: foreign(it, it.offset), other_mark):
        answer = rule(view)
        if answer:
            return answer
    return Answer(view.offset, f"`{rest}`, which begins no token", "the text without it")
