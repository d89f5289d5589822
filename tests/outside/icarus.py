#!/usr/bin/env python3
"""tests/outside/icarus.py TEXT.v [--held-back SEED | --waits]: runs a written text in Icarus until done is shown.

What the text prints goes to standard output, the number of cycles to standard error as `hls step` says it. Without a
seed the wrapper `top_rr` runs. With one it is `top`, where in each cycle numbers drawn from the seed say which threads
are enabled and whom each arbiter prefers. With --waits the number of cycles that threads waited for each arbiter
follows on standard error: those in which it may grant a thread and grants another."""
from __future__ import annotations

import argparse
import random
import re
import shutil
import subprocess
import sys
import tempfile

MOST = 8_000_000


class Failed(Exception):
    pass


def run(words: list[str], text: str = "", seconds: int = 120, folder: str | None = None) -> tuple[int, str, str]:
    ran = subprocess.run(words, input=text.encode("latin-1"), capture_output=True, timeout=seconds, cwd=folder)
    return ran.returncode, ran.stdout.decode("latin-1"), ran.stderr.decode("latin-1")


def bench(ports: str, declared: str = "", first: str = "", each: str = "", last: str = "") -> str:
    """A bench that drives the clock until done is shown, and then tells the cycles."""
    return f"""module bench;
  reg clk;
  wire done;
  integer cycles;
{declared}  {ports}
  initial begin
    clk = 0;
    cycles = 0;
{first}    while (done !== 1'b1 && cycles < {MOST}) begin
{each}      #1 clk = 1;
      #1 clk = 0;
      cycles = cycles + 1;
    end
{last}    $display("\\n%0s %0d", done === 1'b1 ? "done" : "left", cycles);
    $finish;
  end
endmodule
"""


def lockstep() -> str:
    return bench("top_rr dut(.clk(clk), .done(done));")


def first_of(pattern: str, text: str) -> str:
    """What the group of a pattern matches first; nothing where it is left out."""
    found = re.search(pattern, text)
    if not found:
        raise Failed(f"the text has no {pattern}")
    return found[1] or ""


def for_some(enabled: str, most: int) -> str:
    """Draws who is enabled, for fewer cycles than so many."""
    drawn = f"        en = {enabled};\n        left = {{$random(seed)}} % {most};\n"
    return f"      if (left == 0) begin\n{drawn}      end else left = left - 1;\n"


def held_back(verilog: str, seed: int) -> str:
    """A bench of top. Which threads are enabled is drawn in each cycle, or for some cycles on end, or it is one at a
    time, by the seed modulo 3."""
    draw = random.Random(seed)
    last = int(first_of(r"module top\(.*?input wire (?:\[(\d+):0\] )?en\b", verilog) or 0)
    prefs = re.findall(r"input wire \[(\d+):0\] (pref_\d+)", first_of(r"module top\(([^)]*)\)", verilog))
    declared = f"  reg [{last}:0] en;\n  integer seed, left;\n" + "".join(
        f"  reg [{width}:0] {pref};\n" for width, pref in prefs
    )
    first = f"    seed = {draw.randrange(1 << 30)};\n    left = 0;\n    en = 0;\n" + "".join(
        f"    {pref} = 0;\n" for _, pref in prefs
    )
    some = "{$random(seed), $random(seed), $random(seed)} >> 16"
    each = [
        f"      en = {some};\n",
        for_some(some, draw.choice([5, 30, 200])),
        for_some(f"{last + 1}'d1 << ({{$random(seed)}} % {last + 1})", draw.choice([2, 10, 60])),
    ][seed % 3]
    each += "".join(f"      {pref} = $random(seed) >> 7;\n" for _, pref in prefs)
    ports = "".join(f", .{pref}({pref})" for _, pref in prefs)
    return bench(f"top dut(.clk(clk), .en(en), .done(done){ports});", declared, first, each)


def waits(verilog: str) -> tuple[str, list[str]]:
    """A bench of the wrapper that counts what threads wait for arbiters, and the names of their cores."""
    head = first_of(r"module arbiter\(([^)]*)\)", verilog)
    asks = re.findall(r"input wire (?:\[0:0\] )?(\w+)", head)[1:]
    grants = re.findall(r"output wire (?:\[0:0\] )?(\w+)", head)
    top = first_of(r"(?s)(module top\(.*?endmodule)", verilog)
    names = [
        name
        for module, name in re.findall(r"^\s*(\w+) (\w+)\(\.", top, re.M)
        if module not in ("arbiter", "idle") and not module.startswith("fn_")
    ]
    arbiters = re.findall(r"^\s*arbiter (\w+)\(\.", top, re.M)
    wrapped = first_of(r"(?m)^\s*top (\w+)\(\.", verilog)
    declared = "".join(f"  integer waits_{k};\n" for k in range(len(arbiters)))
    first = "    #1;\n" + "".join(f"    waits_{k} = 0;\n" for k in range(len(arbiters)))
    each = ""
    for k, arbiter in enumerate(arbiters):
        at = f"dut.{wrapped}.{arbiter}"
        waiting = "".join(f" + ({at}.{ask} && !{at}.{grant})" for ask, grant in zip(asks, grants))
        each += f"      waits_{k} = waits_{k}{waiting};\n"
    told = '    $write("\\nwaits");\n' + "".join(f'    $write(" %0d", waits_{k});\n' for k in range(len(arbiters)))
    return bench("top_rr dut(.clk(clk), .done(done));", declared, first, each, told), names


def simulated(folder: str, text: str, seconds: int = 600) -> tuple[str, int]:
    """What the text p.v in the folder prints under the bench, and in how many cycles."""
    with open(f"{folder}/bench.v", "w", encoding="ascii") as file:
        file.write(text)
    status, _, said = run(["iverilog", "-g2005", "-Wall", "-s", "bench", "-o", "sim", "bench.v", "p.v"], folder=folder)
    # the bench has no timescale of its own, which Icarus may note; a warning of the written text counts
    if status or "p.v" in said:
        raise Failed(f"iverilog: {said[:400]}")
    status, printed, said = run(["vvp", "-n", "sim"], folder=folder, seconds=seconds)
    printed, _, last = printed.rpartition("\n")[0].rpartition("\n")
    told = re.fullmatch(r"(done|left) (\d+)", last)
    if status or said or not told:
        raise Failed(f"vvp: {said[:400]} {last[:80]}")
    if told[1] == "left":
        raise Failed(f"vvp: not done, {told[2]} cycles, printed {printed[:200]!r}")
    return printed, int(told[2])


def main() -> None:
    parser = argparse.ArgumentParser()
    parser.add_argument("text")
    parser.add_argument("--held-back", type=int)
    parser.add_argument("--waits", action="store_true")
    words = parser.parse_args()
    folder = tempfile.mkdtemp(prefix="icarus-")
    try:
        shutil.copy(words.text, f"{folder}/p.v")
        with open(f"{folder}/p.v", encoding="ascii") as file:
            verilog = file.read()
        text, names = (
            waits(verilog)
            if words.waits
            else (lockstep() if words.held_back is None else held_back(verilog, words.held_back), [])
        )
        printed, cycles = simulated(folder, text)
    except (Failed, subprocess.TimeoutExpired) as why:
        print(why, file=sys.stderr)
        sys.exit(1)
    finally:
        shutil.rmtree(folder, ignore_errors=True)
    printed, _, counts = printed.rpartition("\nwaits ") if words.waits else (printed, "", "")
    sys.stdout.buffer.write(printed.encode("latin-1"))
    print(f"hls: done, {cycles} cycles", file=sys.stderr)
    for name, count in zip(names, counts.split()):
        print(name, count, file=sys.stderr)


if __name__ == "__main__":
    main()
