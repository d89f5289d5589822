"""The text that hls reads of a C file, made by the C preprocessor of the machine, and where each byte of it stands in
the files."""
from __future__ import annotations

import bisect
import difflib
import os
import re
import shutil
import subprocess
import sys
from typing import Iterator, NamedTuple

from driver.c_tokens import Token, tokens

HEADERS = os.path.join(os.path.dirname(os.path.dirname(os.path.realpath(__file__))), "include")
CANDIDATES = ("cpp", "gcc -E", "cc -E", "clang -E")
SECONDS = 60
# Words that change no meaning in the profile, and a name by which a text can tell that hlsc reads it.
DEFINED = ("-Dinline=", "-Dregister=", "-D__HLS__=1")
MARK = re.compile(r'#\s*(?:line\s+)?(\d+)\s+"((?:[^"\\]|\\.)*)"')
MACRO = re.compile(r"#\s*define\s+(\w+)(\(?)")


class Failed(Exception):
    """No text was made: what is to be told, and the exit status."""

    def __init__(self, told: str, status: int) -> None:
        super().__init__(told)
        self.status = status


class Place(NamedTuple):
    """A place in a file, line and column from 1, with that line; and the macro in whose expansion it stands, or
    nothing."""

    file: str
    line: int
    column: int
    shown: str
    macro: str


class Row(NamedTuple):
    """The file and the line, from 1, that a line of the text comes from."""

    file: str
    line: int


class Source:
    """A file as its tokens, of which each call of a macro is one."""

    def __init__(self, text: str) -> None:
        self.lines = text.split("\n")
        self.starts = [0]
        for line in self.lines:
            self.starts.append(self.starts[-1] + len(line) + 1)
        self.tokens = list(tokens(text))
        self.macros = {found[1]: bool(found[2]) for it in self.tokens for found in [MACRO.match(it.text)] if found}

    def row(self, offset: int) -> int:
        """The line of an offset, from 1."""
        return bisect.bisect_right(self.starts, offset)

    def between(self, first: int, last: int) -> list[Token]:
        return [it for it in self.tokens if it.kind != "directive" and first <= self.row(it.offset) <= last]


def read_bytes(path: str) -> bytes:
    """The bytes of a file, or of standard input for `-`."""
    try:
        with open(0 if path == "-" else path, "rb", closefd=path != "-") as file:
            return file.read()
    except OSError as why:
        raise Failed(f"hlsc: {path}: {why.strerror}", 3) from why


def command() -> list[str]:
    """The preprocessor: what the variable CPP names, or the first one that is there."""
    for given in [os.environ["CPP"]] if os.environ.get("CPP") else CANDIDATES:
        if shutil.which(given.split()[0]):
            return given.split()
    raise Failed("hlsc: there is no C preprocessor (cpp, gcc, cc or clang); --raw goes without", 70)


def expanded(path: str, data: bytes, options: list[str]) -> str:
    """What the preprocessor writes, with its line marks."""
    flags = ["-undef", "-nostdinc", "-std=c99", "-x", "c", *options, *DEFINED, "-I", HEADERS, path]
    try:
        ran = subprocess.run([*command(), *flags], input=data, capture_output=True, timeout=SECONDS, check=False)
    except (OSError, subprocess.TimeoutExpired) as why:
        raise Failed(f"hlsc: the preprocessor: {why}", 70) from why
    said = ran.stderr.decode(errors="replace")
    if ran.returncode:
        raise Failed(with_headers(said.rstrip("\n")), 1)
    sys.stderr.write(said)
    return ran.stdout.decode("latin-1")


def with_headers(said: str) -> str:
    """What the preprocessor said, with the headers that there are where one is missing."""
    if "No such file" not in said:
        return said
    names = ", ".join(f"<{name}>" for name in sorted(os.listdir(HEADERS)))
    return f"{said}\n  write: of the standard headers there are {names}"


def called(found: list[Token], at: int, is_function: bool) -> int:
    """The end of the call of a macro that begins with the token."""
    if not is_function or at + 1 == len(found) or found[at + 1].text != "(":
        return at + 1
    depth = 0
    for end in range(at + 1, len(found)):
        depth += {"(": 1, ")": -1}.get(found[end].text, 0)
        if depth == 0:
            return end + 1
    return len(found)


def without_calls(found: list[Token], macros: dict[str, bool]) -> Iterator[Token]:
    """The tokens, each call of a macro as one that stands for no other."""
    at = 0
    while at < len(found):
        if found[at].text in macros:
            yield found[at]._replace(kind="macro")
            at = called(found, at, macros[found[at].text])
        else:
            yield found[at]
            at += 1


def original(source: list[Token], text: list[Token], wanted: int) -> Token | None:
    """The token of the source that became that of the text; or the macro that did."""
    # what a macro's name is spelled like never stands for its expansion
    spelled = [f"\0{it.text}" if it.kind == "macro" else it.text for it in source]
    matcher = difflib.SequenceMatcher(None, spelled, [it.text for it in text], autojunk=False)
    behind = 0
    for block in matcher.get_matching_blocks():
        if block.b <= wanted < block.b + block.size:
            return source[block.a + wanted - block.b]
        if block.b + block.size <= wanted and block.size:
            behind = block.a + block.size
    return source[min(behind, len(source) - 1)] if source else None


class Text:
    """What hls reads, and where it comes from: each line from its row, or all behind so many first lines of the
    file."""

    def __init__(self, path: str, data: str, rows: list[Row] | None = None, skipped: int = 0) -> None:
        self.path, self.data, self.rows, self.skipped = path, data, rows, skipped
        self.sources: dict[str, Source] = {}

    def source(self, file: str) -> Source:
        """A file that was read; one that is not there is empty."""
        if file not in self.sources:
            self.sources[file] = Source(read_bytes(file).decode("latin-1") if os.path.isfile(file) else "")
        return self.sources[file]

    def macros(self) -> dict[str, bool]:
        """The names of all macros of the files that were read, and whether each takes arguments."""
        files = {row.file for row in self.rows or []}
        found = {"inline": False, "register": False, "__LINE__": False, "__FILE__": False}
        for file in [*files, *(os.path.join(HEADERS, name) for name in sorted(os.listdir(HEADERS)))]:
            found.update(self.source(file).macros)
        return found

    def place(self, offset: int, behind: bool = False) -> Place:
        """Where a token stands, by the offset of its first byte; or where it ends."""
        row = self.data.count("\n", 0, offset)
        start = self.data.rfind("\n", 0, offset) + 1
        if self.rows is None:
            word = next((it for it in tokens(self.data[offset:])), None) if behind else None
            return self.shown(self.path, row + 1 + self.skipped, offset - start + (len(word.text) if word else 0), "")
        if not self.rows:
            return Place(self.path, 1, 1, "", "")
        return self.mapped(self.rows, min(row, len(self.rows) - 1), start, offset, behind)

    def mapped(self, rows: list[Row], row: int, start: int, offset: int, behind: bool) -> Place:
        """Where a token of a preprocessed line stands."""
        file, line = rows[row]
        last = rows[row + 1].line - 1 if row + 1 < len(rows) and rows[row + 1].file == file else line
        source, macros = self.source(file), self.macros()
        text = list(tokens(self.data[start:].split("\n")[0]))
        wanted = max((k for k, it in enumerate(text) if it.offset <= offset - start), default=0)
        found = original(list(without_calls(source.between(line, max(line, last)), macros)), text, wanted)
        if found is None or not text:
            return self.shown(file, line, 0, "")
        within = 0 if found.kind == "macro" else offset - start - text[wanted].offset
        at = found.offset + (len(found.text) if behind else max(0, within))
        real = source.row(found.offset)
        return self.shown(file, real, at - source.starts[real - 1], found.text if found.kind == "macro" else "")

    def shown(self, file: str, line: int, column: int, macro: str) -> Place:
        lines = self.source(file).lines
        held = (lines[line - 1] if line <= len(lines) else "").rstrip("\r").encode("latin-1")
        before = held[:column].decode("utf-8", errors="replace").lstrip("\ufeff")
        return Place(file, line, len(before) + 1, held.decode("utf-8", errors="replace").lstrip("\ufeff"), macro)


def raw(path: str, has_journal: bool = False) -> Text:
    """The text of a file as it stands, without the journal that it begins with where it may have one."""
    data = read_bytes(path).decode("latin-1")
    journal = re.match(r"(?://@[^\n]*\n)*", data) if has_journal else None
    text = Text(path, data[journal.end() :] if journal else data, None, journal[0].count("\n") if journal else 0)
    text.sources[path] = Source(data)
    return text


def preprocessed(path: str, options: list[str]) -> Text:
    """The text of a file behind the preprocessor, without line marks and empty lines."""
    data = read_bytes(path)
    kept: list[str] = []
    rows: list[Row] = []
    file, line = path, 1
    for told in expanded(path, data, options).split("\n"):
        mark = MARK.match(told)
        if mark:
            file, line = re.sub(r"\\(.)", r"\1", mark[2]), int(mark[1])
            continue
        if told.strip():
            kept.append(told)
            rows.append(Row("-" if file in ("<stdin>", "") else file, line))
        line += 1
    text = Text(path, "".join(f"{it}\n" for it in kept), rows)
    text.sources[path] = Source(data.decode("latin-1"))
    return text
