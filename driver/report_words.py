"""What a report says of a stage, in a few words of C.

In these words a name stands for what the block finds there, so its assignments are all made at once; casts are left
out. An operation whose words would be long, or that reads what the block has written, is named by its number, as `#3`.
"""
from __future__ import annotations

from driver.report import ACCESSES, Function, Operand, Operation, Report, Stage

# The operators of C, by their words.
SIGNS = {
    "plus": "+",
    "minus": "-",
    "complement": "~",
    "not": "!",
    "multiply": "*",
    "divide": "/",
    "remainder": "%",
    "add": "+",
    "subtract": "-",
    "shift_left": "<<",
    "shift_right": ">>",
    "less": "<",
    "greater": ">",
    "less_equal": "<=",
    "greater_equal": ">=",
    "equal": "==",
    "not_equal": "!=",
    "and": "&",
    "exclusive_or": "^",
    "inclusive_or": "|",
}
MOST_LETTERS = 48


def variable_text(function: Function, number: int) -> str:
    """The C local that a variable is, or `v` and its number."""
    return function.variables[number].name or f"v{number}"


def operand_text(function: Function, held: Operand) -> str:
    """A constant, a variable, or `#` and the number of an operation."""
    if held.kind == "variable":
        return variable_text(function, held.number)
    return str(held.number) if held.kind == "constant" else f"#{held.number}"


def place_text(report: Report, made: Operation, index: str) -> str:
    """What an access reads or writes."""
    if not made.what.endswith("global"):
        return f"array_{made.accessed}[{index}]"
    held = report.globals[made.accessed]
    return held.name if held.words == 1 else f"{held.name}[{index}]"


def made_text(report: Report, made: Operation, told: dict[str, str]) -> str:
    """What an operation does, by the words of its operands."""
    if made.what in ACCESSES:
        place = place_text(report, made, told["index"])
        return f"{place} = {told['stored']}" if made.what.startswith("write") else place
    if "operand" in told:
        return f"{SIGNS[made.what]}{told['operand']}"
    return f"{told['left']} {SIGNS[made.what]} {told['right']}"


def operation_text(report: Report, function: Function, made: Operation) -> str:
    """An operation, each operand by its own name."""
    return made_text(report, made, {key: operand_text(function, held) for key, held in made.operands.items()})


def bare(text: str) -> str:
    """Without parentheses that go round the whole."""
    depth = 0
    for k, letter in enumerate(text):
        depth += (letter == "(") - (letter == ")")
        if depth == 0 and k + 1 < len(text):
            return text
    return text[1:-1] if text.startswith("(") else text


class BlockWords:
    """The words of a block: those of the value of each operation, and what is told, in order."""

    def __init__(self, report: Report, function: Function, stage: Stage) -> None:
        self.report, self.function = report, function
        self.values: list[str] = []
        self.parts: list[str] = []
        self.written: set[tuple[bool, int]] = set()
        for number, made in enumerate(stage.operations):
            self.put(number, made)
        self.parts += [f"{variable_text(function, k)} = {bare(self.text(it))}" for k, it in stage.finals.items()]
        if stage.test:
            self.parts.append(f"if {bare(self.text(stage.test))}")

    def text(self, held: Operand) -> str:
        return self.values[held.number] if held.kind == "value" else operand_text(self.function, held)

    def put(self, number: int, made: Operation) -> None:
        """Appends an operation. A read of what the block has written is told where it stands."""
        told = {key: self.text(held) for key, held in made.operands.items()}
        told.update({key: bare(it) for key, it in told.items() if key in ("index", "stored")})
        text = made_text(self.report, made, told)
        place = (made.what.endswith("global"), made.accessed)
        is_new = made.what.startswith("read_") and place in self.written
        if made.what.startswith("write_"):
            self.written.add(place)
            self.parts.append(text)
        elif is_new:
            self.parts.append(f"#{number} = {text}")
        short = text if made.what in ACCESSES else f"({text})"
        self.values.append(f"#{number}" if is_new or len(text) > MOST_LETTERS else short)


def stage_parts(report: Report, function: Function, stage: Stage) -> list[str]:
    """What a stage does, in a few words each."""
    if stage.act:
        site = [] if stage.site is None else [f'"{report.module("printer").writes.get(stage.site, "")}"']
        return [" ".join([stage.act, *site, *(operand_text(function, held) for held in stage.handed)])]
    return BlockWords(report, function, stage).parts


def stage_text(report: Report, function: Function, stage: Stage) -> str:
    """A stage in a few words."""
    return "; ".join(stage_parts(report, function, stage)) or "nothing"
