"""The report of a program's hardware as one page of HTML, which fetches nothing: charts, and the C text beside them."""
from __future__ import annotations

from driver.charts import TIP, block_chart, core_net, escape, stage_graph
from driver.report import Function, Module, Report

STYLE = """
body { font: 14px/1.4 sans-serif; margin: 0; color: #222; display: flex; align-items: flex-start; }
main { flex: 3; min-width: 0; padding: 1em 2em; }
pre.text { flex: 2; min-width: 0; box-sizing: border-box; font: 12px/1.5 monospace; position: sticky; top: 0;
  height: 100vh; overflow: auto; background: #f7f7f7; padding: 1em; margin: 0; }
pre.text .same { background: #ffe58a; }
pre.text i { color: #999; font-style: normal; user-select: none; }
table { border-collapse: collapse; margin: .5em 0 1.5em; }
td, th { border: 1px solid #ddd; padding: .2em .6em; text-align: left; }
h4 { margin: 1em 0 0; }
h2 { border-bottom: 2px solid #444; }
.chart { overflow-x: auto; margin: .3em 0 1.2em; }
svg { display: block; }
.tip { position: absolute; }
b { font-weight: normal; padding: 0 .3em; }
svg text { font: 11px monospace; }
.logic { fill: #9cc3e6; background: #9cc3e6; }
.unit { fill: #f2b880; background: #f2b880; }
.access { fill: #a9d6a3; background: #a9d6a3; }
.grid { stroke: #e4e4e4; }
.edge { stroke: #666; fill: none; }
marker path { fill: #666; }
.act { fill: #f6e7b4; stroke: #888; }
.block { fill: #e8eef5; stroke: #888; }
"""
KEY = (
    '<p>A row is an operation, named #0, #1 and so on, a column a state. A bar is <b class="logic">logic</b>, a '
    '<b class="unit">functional unit</b> or an <b class="access">access</b> of a global or an array.</p>'
)


# Where the mouse is on a stage or an operation, the lines of the C text are shown in which all of its names stand.
SCRIPT = """
const lines = [...document.querySelectorAll("pre.text span")];
const words = lines.map(it => new Set(it.textContent.match(/\\w+/g)));
const show = sets => lines.forEach((line, k) =>
  line.classList.toggle("same", sets.some(names => names.every(name => words[k].has(name)))));
for (const it of document.querySelectorAll("[data-names]")) {
  const sets = it.dataset.names.split(";").map(names => names.split(" "));
  it.addEventListener("mouseenter", () => show(sets));
  it.addEventListener("mouseleave", () => show([]));
}
"""


def table(heads: list[str], rows: list[list[str]]) -> str:
    head = "".join(f"<th>{escape(word)}</th>" for word in heads)
    body = "".join("<tr>" + "".join(f"<td>{escape(word)}</td>" for word in row) + "</tr>" for row in rows)
    return f"<table><tr>{head}</tr>{body}</table>"


def counted(number: int, noun: str) -> str:
    return f"{number} {noun}" if number == 1 else f"{number} {noun}s"


def bits(module: Module) -> tuple[int, int]:
    """The bits of a module's own registers, and of its memories."""
    return sum(width for width, _ in module.flipflops), sum(it.words * it.width for it in module.memories)


def all_bits(report: Report) -> tuple[int, int]:
    """The bits of all registers and of all memories below `top`."""
    found = [bits(report.module(module)) for _, module in report.module("top").instances]
    return sum(it for it, _ in found), sum(it for _, it in found)


def summary(report: Report) -> str:
    flipflops, words = all_bits(report)
    return (
        f"<p>{counted(len(report.threads()), 'thread')}, {counted(len(report.cores), 'core')} with an arbiter each, "
        f"{counted(flipflops, 'bit')} of registers, {counted(words, 'bit')} of memories.</p>"
    )


def net_part(report: Report) -> str:
    """The globals with their banks, the threads, the cores with their arbiters, and what is printed."""
    banks = []
    for held in report.globals:
        found = " + ".join(f"{it.words} x {it.width}" for it in report.banks(held.name))
        banks.append([held.name, f"{held.words} x {held.width} {held.sign}", found, ", ".join(held.asked_by)])
    kinds = dict(report.module("top").instances)
    cores = [[f"arbiter_{k}", f"pref_{k}", name, kinds.get(name, "")] for k, name in enumerate(report.cores)]
    sites = [[str(k), f'"{text}"'] for k, text in report.module("printer").writes.items()]
    parts = ["<h2>Threads, arbiters and cores</h2>", core_net(report)]
    parts += ["<h2>Globals and banks</h2>", table(["global", "words", "banks (words x bits)", "asked by"], banks)]
    parts += ["<h2>Arbiters</h2>", table(["arbiter", "preference", "core", "module"], cores)]
    return "".join([*parts, "<h2>Print sites</h2>", table(["site", "format"], sites)])


def function_part(report: Report, function: Function) -> str:
    """The variables of a thread function, its stages, and the chart of each block that has operations."""
    variables = [
        [f"v{k}", it.name or "(for acts)", f"{it.width} {it.sign}", "the argument" if k == function.argument else ""]
        for k, it in enumerate(function.variables)
    ]
    arrays = [[f"array_{k}", f"{it.words} x {it.width} {it.sign}"] for k, it in enumerate(function.arrays)]
    parts = [f"<h2>Thread function {escape(function.name)}</h2>"]
    told = (
        f"{counted(len(function.stages), 'stage')}; {counted(function.registers, 'register')} for values of operations"
    )
    parts.append(f"<p>{told}.</p>")
    parts.append(table(["variable", "name in C", "type", ""], variables))
    parts += [table(["local array", "words"], arrays)] if arrays else []
    parts += ["<h3>Stages</h3>", stage_graph(report, function)]
    for stage in function.stages:
        if stage.operations:
            place = escape(f"{function.name}-{stage.number}")
            told = f"Block {stage.number}: {counted(stage.states, 'state')}, {counted(stage.steps, 'step')} of C"
            parts.append(f'<h4 id="{place}">{told}</h4>')
            parts.append(block_chart(report, function, stage))
    return "".join(parts)


def page(report: Report, name: str, text: str) -> str:
    """The page of a C file of this name."""
    lines = "".join(f"<i>{k:4} </i><span>{escape(line)}</span>\n" for k, line in enumerate(text.splitlines(), 1))
    parts = "".join(function_part(report, function) for function in report.functions)
    return (
        f'<!DOCTYPE html>\n<html lang="en"><head><meta charset="utf-8"><title>{escape(name)}</title>'
        f"<style>{STYLE}</style></head><body>{TIP}<main><h1>{escape(name)}</h1>{summary(report)}{net_part(report)}{KEY}"
        f'{parts}</main><pre class="text">{lines}</pre><script>{SCRIPT}</script></body></html>\n'
    )
