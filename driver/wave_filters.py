"""Filters for GTKWave, which show the stage of each thread by what it does in place of its number.

GTKWave reads a translate filter as lines, each a value as the wave shows it and the text in its place."""
from __future__ import annotations

from typing import Iterator

from driver.report import Function, Report
from driver.report_words import stage_text

MOST_LETTERS = 80
# How GTKWave shows a wave: in hexadecimal, to the right; and by a filter from a file.
HEXADECIMAL, BY_FILTER = 0x22, 0x2000


def stage_register(report: Report, module: str) -> tuple[int, str] | None:
    """The width and the name of the register that has the stage of a thread's module."""
    return next((it for it in report.module(module).flipflops if it[1].startswith("stage_")), None)


def stage_filter(report: Report, function: Function, width: int) -> str:
    """A line for each value of the register, in hexadecimal: a stage's number; behind the last stage main is done, and
    another thread waits for its create; behind that each stage once more, which waits at a barrier for the others."""
    texts = {stage.number: stage_text(report, function, stage) for stage in function.stages}
    count = len(texts)
    lines = [(k, f"{k}: {text}") for k, text in texts.items()]
    lines.append((count, f"{count}: " + ("done" if function is report.functions[0] else "waits for its create")))
    waits = [stage.number for stage in function.stages if stage.act == "barrier_wait"]
    lines += [(count + 1 + k, f"{k}: {texts[k]}, waits for the others") for k in waits]
    digits = (width + 3) // 4
    return "".join(f"{value:0{digits}x} {text[:MOST_LETTERS]}\n" for value, text in lines)


def filters(report: Report) -> Iterator[tuple[str, str]]:
    """For each thread function the name of its filter's file, and the filter."""
    for function in report.functions:
        register = stage_register(report, f"fn_{function.name}")
        if register:
            yield f"fn_{function.name}.filter", stage_filter(report, function, register[0])


def save_file(report: Report, folder: str) -> str:
    """A save file for a dump of `hls step --vcd`: the stage of each thread, by the filters in a folder."""
    known = {name for name, _ in filters(report)}
    lines = []
    for instance, module in report.threads():
        register = stage_register(report, module)
        if register and f"{module}.filter" in known:
            width, name = register
            lines += [f"@{HEXADECIMAL | BY_FILTER:x}", f"^1 {folder}/{module}.filter"]
            lines.append(f"top.{instance}.{name}" + (f"[{width - 1}:0]" if width > 1 else ""))
    return "".join(f"{line}\n" for line in lines)
