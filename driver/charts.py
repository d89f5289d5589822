"""Drawings of a report: the chart of a block, the stages of a thread function, and who asks which core. Each is one
`svg` of HTML."""
from __future__ import annotations

import html
import re
from typing import Iterator, NamedTuple

from driver.report import ACCESSES, ACTS, Function, Operation, Report, Stage
from driver.report_words import operation_text, stage_parts, stage_text

LETTER = 6.7
ROW = 18
# What acts are called in C.
CALLS = {"print": "printf", "return": "return", **{it: f"pthread_{it}" for it in ACTS if it != "return"}}


def escape(text: str) -> str:
    return html.escape(text, quote=True)


def cut(text: str, letters: int) -> str:
    """A text of at most so many letters."""
    return text if len(text) <= letters else f"{text[: letters - 2]}.."


def label(x: float, y: float, text: str, letters: int = 200) -> str:
    """A text, the whole of which is told where the mouse rests on it."""
    shown = cut(text, letters)
    whole = f"<title>{escape(text)}</title>" if shown != text else ""
    return f'<text x="{x:g}" y="{y:g}">{escape(shown)}{whole}</text>'


def drawing(width: float, height: float, parts: list[str]) -> str:
    head = f'<svg width="{width:g}" height="{height:g}" viewBox="0 0 {width:g} {height:g}">'
    return f'<div class="chart">{head}{"".join(parts)}</svg></div>'


# What arrows end in: once in a page.
TIP = (
    '<svg class="tip" width="0" height="0"><defs>'
    '<marker id="tip" viewBox="0 0 8 8" refX="7" refY="4" markerWidth="7" markerHeight="7" orient="auto">'
    '<path d="M0 0L8 4L0 8z"/></marker></defs></svg>'
)


def marked(report: Report, function: Function, texts: list[str], inside: str) -> str:
    """A part of a drawing that knows which names of the C text stand in its words, those of each text together."""
    known = {it.name for it in [*function.variables, *report.globals]} | {CALLS.get(it, it) for it in CALLS}
    found = [" ".join(dict.fromkeys(it for it in re.findall(r"\w+", text) if it in known)) for text in texts]
    names = ";".join(dict.fromkeys(it for it in found if it))
    return f'<g data-names="{escape(names)}">{inside}</g>' if names else inside


# ---- a block


STATE, NAMES = 44, 42


def kept(operation: Operation) -> str:
    """The unit that does an operation, and the register that keeps its value. One with a constant operand has an
    operator of its own, whatever unit the plan gives it."""
    is_alone = operation.unit and any(it.kind == "constant" for it in operation.operands.values())
    register = "" if operation.register is None else f"register {operation.register}"
    return ", ".join(it for it in ("an operator of its own" if is_alone else operation.unit, register) if it)


def bar(left: float, row: int, operation: Operation) -> str:
    look = "access" if operation.what in ACCESSES else "unit" if operation.unit else "logic"
    x, y, wide = left + operation.start * STATE, (row + 1) * ROW, operation.latency * STATE - 2
    return f'<rect class="{look}" x="{x:g}" y="{y + 2}" width="{wide}" height="{ROW - 4}"/>'


def block_chart(report: Report, function: Function, stage: Stage) -> str:
    """A row for each operation, a column for each state."""
    left = NAMES * LETTER
    notes = max((len(kept(it)) for it in stage.operations), default=0) * LETTER
    width, height = left + stage.states * STATE + notes + 12, (len(stage.operations) + 1) * ROW + 4
    parts = []
    for state in range(stage.states + 1):
        x = left + state * STATE
        parts.append(f'<path class="grid" d="M{x:g} {ROW}V{height}"/>')
        if state < stage.states:
            parts.append(label(x + STATE / 2 - LETTER * len(str(state)) / 2, ROW - 5, str(state)))
    for row, operation in enumerate(stage.operations):
        y = (row + 1) * ROW + 13
        text = operation_text(report, function, operation)
        drawn = label(0, y, f"#{row} {text}", NAMES - 1) + bar(left, row, operation)
        parts.append(marked(report, function, [text], drawn))
        parts.append(label(left + (operation.start + operation.latency) * STATE + 4, y, kept(operation)))
    return drawing(width, height, parts)


# ---- the stages of a function


STEP, HIGH, WIDE, NEAR, LANE = 38, 26, 470, 34, 9


class Edge(NamedTuple):
    """From the stage at a place to the one at another, by what is chosen."""

    start: int
    end: int
    choice: str


def edges(function: Function) -> list[Edge]:
    """Where each stage leads, within the function."""
    found = []
    for stage in function.stages:
        choices = ("if", "else") if len(stage.next) == 2 else ("",)
        found += [Edge(stage.number, to, choice) for to, choice in zip(stage.next, choices)]
    return [it for it in found if it.end < len(function.stages)]


def lanes(found: list[Edge]) -> dict[Edge, int]:
    """For each edge a lane, so that no two in one lane meet; the short ones lie inside."""
    taken: list[list[Edge]] = []
    given = {}
    for edge in sorted(found, key=lambda it: abs(it.end - it.start)):
        low, high = sorted((edge.start, edge.end))
        free = (
            k for k, row in enumerate(taken) if all(max(it.start, it.end) < low or min(it[:2]) > high for it in row)
        )
        lane = next(free, len(taken))
        if lane == len(taken):
            taken.append([])
        taken[lane].append(edge)
        given[edge] = lane
    return given


def room(found: list[Edge]) -> int:
    """How wide the lanes of some edges are."""
    return NEAR + LANE * (max(lanes(found).values(), default=0) + 1)


def arrow(path: str) -> str:
    return f'<path class="edge" marker-end="url(#tip)" d="{path}"/>'


def side_edges(found: list[Edge], side: float, turn: int) -> Iterator[str]:
    """Edges beside the stages: from a stage out to a lane, along it, and back to a stage."""
    for edge, lane in lanes(found).items():
        x = side + turn * (NEAR + LANE * lane)
        start, end = edge.start * STEP + 4 + HIGH * 0.7, edge.end * STEP + 4 + HIGH * 0.3
        yield arrow(f"M{side:g} {start:g}H{x:g}V{end:g}H{side:g}")
        if edge.choice:
            yield label(side + turn * 3 - (0 if turn > 0 else LETTER * len(edge.choice)), start + 11, edge.choice)


def stage_graph(report: Report, function: Function) -> str:
    """The stages below one another. To the next one an arrow goes straight down, to a later one at the left, back to an
    earlier one at the right."""
    found = edges(function)
    far = [it for it in found if it.end > it.start + 1]
    back = [it for it in found if it.end <= it.start]
    left = room(far)
    width = left + WIDE + room(back)
    parts = []
    for k, stage in enumerate(function.stages):
        y = k * STEP + 4
        look, text = "act" if stage.act else "block", f"{stage.number}: {stage_text(report, function, stage)}"
        box = f'<rect class="{look}" x="{left:g}" y="{y}" width="{WIDE}" height="{HIGH}" rx="4"/>'
        told = [CALLS[stage.act]] if stage.act else stage_parts(report, function, stage)
        inside = marked(report, function, told, box + label(left + 6, y + 17, text, int((WIDE - 12) / LETTER)))
        place = f"#{function.name}-{stage.number}"
        parts.append(f'<a href="{escape(place)}">{inside}</a>' if stage.operations else inside)
    for edge in found:
        if edge.end == edge.start + 1:
            y = edge.start * STEP + 4 + HIGH
            parts.append(arrow(f"M{left + 30:g} {y}V{y + STEP - HIGH}"))
            if edge.choice:
                parts.append(label(left + 36, y + 10, edge.choice))
    parts += [*side_edges(far, left, -1), *side_edges(back, left + WIDE, 1)]
    return drawing(width, len(function.stages) * STEP + 8, parts)


# ---- who asks which core


class CoreGroup(NamedTuple):
    """Cores of one kind, or the banks of one global: their numbers, what they are, and which functions ask them."""

    numbers: list[int]
    text: str
    asked_by: list[str]


def asking(report: Report, kind: str) -> list[str]:
    """The functions that ask cores of a kind. The last act of a start routine ends its thread id; that of main asks
    nobody."""
    found = []
    for k, function in enumerate(report.functions):
        acts = {stage.act for stage in function.stages}
        asked = {
            "mutex": any(it.startswith("mutex_") for it in acts),
            "barrier": any(it.startswith("barrier_") for it in acts),
            "fork": bool(acts & {"create", "join"}) or k > 0,
            "printer": "print" in acts,
        }
        if asked[kind]:
            found.append(function.name)
    return found


def run_of(names: list[str]) -> str:
    """Names that differ in their last number: the first one and the last number, as `t_1 .. 4`."""
    return names[0] if len(names) == 1 else f"{names[0]} .. {names[-1].rpartition('_')[2]}"


def core_groups(report: Report) -> list[CoreGroup]:
    """The cores in their order, banks of one global and cores of one kind together."""
    groups: dict[str, list[int]] = {}
    for k, name in enumerate(report.cores):
        groups.setdefault(name.rpartition("_")[0], []).append(k)
    named = {f"u_{it.name}": it for it in report.globals}
    found = []
    for stem, numbers in groups.items():
        names = run_of([report.cores[k] for k in numbers])
        if stem in named:
            banks = report.banks(named[stem].name)
            shapes = dict.fromkeys(f"{it.words} x {it.width}" for it in banks)
            found.append(CoreGroup(numbers, f"{names}: {' or '.join(shapes)} bits", named[stem].asked_by))
        else:
            found.append(CoreGroup(numbers, names, asking(report, stem.removeprefix("u"))))
    return found


def thread_groups(report: Report) -> list[tuple[str, str]]:
    """The modules of threads, each with its instances."""
    groups: dict[str, list[str]] = {}
    for name, module in report.threads():
        groups.setdefault(module, []).append(name)
    return [(module, f"{module}: {run_of(names)}") for module, names in groups.items()]


def box(look: str, x: float, y: float, wide: float, text: str) -> str:
    frame = f'<rect class="{look}" x="{x:g}" y="{y:g}" width="{wide:g}" height="{HIGH}" rx="4"/>'
    return frame + label(x + 6, y + 17, text, int((wide - 12) / LETTER))


def core_net(report: Report) -> str:
    """Threads at the left, arbiters in the middle, cores at the right; an edge where a thread may ask."""
    threads, cores = thread_groups(report), core_groups(report)
    middle, right, wide = 380, 680, 330
    heights = [k * STEP + 4 for k in range(max(len(threads), len(cores)))]
    at = {module: heights[k] + HIGH / 2 for k, (module, _) in enumerate(threads)}
    parts = [box("block", 0, heights[k], 230, text) for k, (_, text) in enumerate(threads)]
    for k, group in enumerate(cores):
        y = heights[k] + HIGH / 2
        arbiters = [run_of([f"{word}_{number}" for number in group.numbers]) for word in ("arbiter", "pref")]
        for name in group.asked_by:
            if f"fn_{name}" in at:
                parts.append(arrow(f"M230 {at[f'fn_{name}']:g}C300 {at[f'fn_{name}']:g} 310 {y:g} {middle} {y:g}"))
        parts.append(box("act", middle, heights[k], 250, ", ".join(arbiters)))
        parts.append(arrow(f"M{middle + 250} {y:g}H{right}"))
        parts.append(box("access", right, heights[k], wide, group.text))
    return drawing(right + wide + 4, len(heights) * STEP + 8, parts)
