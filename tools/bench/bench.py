#!/usr/bin/env python3
"""Compares lldpa with plain C that does the same work (tools/bench/yardstick.c), in one run.

    tools/bench/bench.py [--program PROGRAM] [--only TEXT] [--times N]   prints the table
    tools/bench/bench.py --others      also measures a start, readers of captures, and an audit
    tools/bench/bench.py --save        also writes docs/bench.json and docs/bench.svg
    tools/bench/bench.py --svg FILE    draws docs/bench.json again, and measures nothing

For each row the programs run in turn, several times, on a trace and on the beginning of that trace.
The row shows each program's least processor time for the trace, less that for the beginning, per
item. C with vector instructions checks no TLVs, so it only shows what is possible. callgrind (of
valgrind) counts instructions on a shorter trace. --others measures installed readers (tshark,
tcpdump) too. Needs a C compiler, and --save needs valgrind.

What is saved is measured by one run with one program. The gate measures the instructions again
(bench_counts.py). How many times as long as plain C the program takes is saved for the picture alone,
since it is another on each kind of processor. Nanoseconds are printed, but not saved.

bench_rows.py has the rows, bench_captures.py measures readers of captures, and bench_picture.py draws
the picture.
"""
from __future__ import annotations

import argparse
import json
import platform
import re
import subprocess
import sys
import tempfile
import time
from pathlib import Path
from typing import Any

from bench_captures import audit_of_cabling, capture_rows, other_readers, seconds, spent
from bench_counts import counted, counted_start, library
from bench_picture import picture
from bench_rows import PORTS, Row, rows

TOP = Path(__file__).resolve().parents[2]

SAVED, PICTURE = TOP / "docs" / "bench.json", TOP / "docs" / "bench.svg"
HEADS = ["lldpa", "C", "ratio", "vectors", "# lldpa"]


def resident(words: list[str]) -> int:
    """Returns the peak memory, in kilobytes, of a program that waits for its first line."""
    child = subprocess.Popen(words, stdin=subprocess.PIPE, stdout=subprocess.DEVNULL)
    time.sleep(0.2)
    told = Path(f"/proc/{child.pid}/status").read_text()
    child.communicate()
    found = re.search(r"VmHWM:\s+(\d+)", told)
    return int(found.group(1)) if found else 0


def by_turns(row: Row, room: Path, sides: list[list[str]], times: int) -> list[float]:
    """Runs the programs in turn. Returns each one's least time, in nanoseconds per item."""
    whole, begin, things = row.traces(room, row.lines)
    best = [[float("inf"), float("inf")] for _ in sides]
    for _ in range(times):
        for words, least in zip(sides, best):
            least[0] = min(least[0], seconds(words, whole))
            least[1] = min(least[1], seconds(words, begin))
    return [1e9 * (all_of_it - before) / things for all_of_it, before in best]


def beside_c(figures: list[float]) -> list[float]:
    """Returns how many times as long as plain C lldpa takes, and C with vector instructions."""
    return [round(figures[at] / figures[1], 3) for at in (0, *range(2, len(figures)))] if len(figures) > 1 else []


def start(program: str) -> list[str]:
    """Returns lines on the cost of a start: one port, and 64 ports for 128 neighbors each."""
    lines = []
    for title, words in (("one port", ["eth0"]), ("64 ports", ["--max-neighbors=128", *PORTS])):
        least = min(spent([program, *words]).processor for _ in range(20))
        memory = resident([program, *words])
        lines.append(f"start with {title}: {1e3 * least:.2f} ms of processor time, {memory} KB of memory")
    return lines


def columns(figures: list[float], instructions: list[float]) -> str:
    """Returns the columns of a row, in the order of HEADS."""
    shown = [f"{value:.0f} ns" for value in figures] + [""] * (3 - len(figures))
    shown.insert(2, f"{figures[0] / figures[1]:.2f}" if len(figures) > 1 else "")
    return "".join(f"{column:>11}" for column in [*shown, *(f"{count:.0f}" for count in instructions)])


def processor() -> str:
    found = re.search(r"model name\s*:\s*(.*)", Path("/proc/cpuinfo").read_text())
    return found.group(1) if found else platform.processor()


def machine() -> str:
    return f"{processor()}, {platform.system()} {platform.release()}"


def compiled(room: Path) -> str:
    """Compiles the yardstick into a folder, and returns the path of the program."""
    yardstick = str(room / "yardstick")
    subprocess.run(["cc", "-O2", "-o", yardstick, str(TOP / "tools/bench/yardstick.c")], check=True)
    return yardstick


def table(options: argparse.Namespace, room: Path) -> list[dict[str, Any]]:
    """Measures each row, prints it, and returns what is saved of it."""
    print(" " * 48 + "".join(f"{head:>11}" for head in HEADS))
    yardstick, told = compiled(room), []
    for row in rows(options.program, room):
        if options.only in row.title:
            sides = row.sides(options.program, yardstick)
            figures = by_turns(row, room, sides, options.times)
            count = counted(row, room, sides[:1]) if options.save else []
            print(f"{row.title:48}{columns(figures, count)}", flush=True)
            told.append({"title": row.title, "beside_c": beside_c(figures), "instructions": count})
    return told


def measure(options: argparse.Namespace, room: Path) -> dict[str, Any]:
    """Measures all, prints it, and returns what is saved of it."""
    print(f"machine: {machine()}")
    told: dict[str, Any] = {"machine": machine(), "rows": table(options, room)}
    if options.save:
        told["start_instructions"], told["library"] = counted_start(options.program, room), library()
    if options.others:
        others = start(options.program) + other_readers(room, options.times) + capture_rows(room, options.times)
        print("\n".join(others + audit_of_cabling(room)))
    return told


def read_options() -> argparse.Namespace:
    parser = argparse.ArgumentParser(description=(__doc__ or "").splitlines()[0])
    add = parser.add_argument
    add("--program", default=str(TOP / "crates/lldpa/out/lldpa"), help="the built program")
    add("--times", type=int, default=5, help="runs of each program; the least time counts (default: 5)")
    add("--only", default="", help="only rows with this text in their title")
    add("--others", action="store_true", help="also measure a start, readers of captures, and an audit")
    add("--save", action="store_true", help="write docs/bench.json, and draw it")
    add("--svg", metavar="FILE", help="draw docs/bench.json to this file, and measure nothing")
    options = parser.parse_args()
    if not (options.svg or Path(options.program).is_file()):
        parser.error(f"--program: there is no program {options.program}: make builds it")
    return options


def main() -> None:
    options = read_options()
    if options.svg:
        Path(options.svg).write_text(picture(json.loads(SAVED.read_text())))
        return
    if options.save and options.only:
        sys.exit("what is saved is measured whole: --save takes no --only")
    with tempfile.TemporaryDirectory() as folder:
        told = measure(options, Path(folder))
    if options.save:
        SAVED.write_text(json.dumps(told, indent=1) + "\n")
        PICTURE.write_text(picture(told))


if __name__ == "__main__":
    main()
