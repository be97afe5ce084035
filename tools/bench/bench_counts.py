#!/usr/bin/env python3
"""Counts the instructions of each row of the benchmark, and compares them with docs/bench.json.
bench_calls.py does the same for calls of the library.

    python3 tools/bench/bench_counts.py [--program PROGRAM]

A row fails if its instructions are over 1 % more or fewer than the saved count (with another C
library, over 5 %). Without valgrind the status is 3. If a row has become
slower or faster on purpose, `tools/bench/bench.py --save` saves all figures anew.
"""
from __future__ import annotations

import argparse
import json
import platform
import re
import shutil
import subprocess
import sys
import tempfile
from pathlib import Path

from bench_calls import judge_calls
from bench_rows import MANY, PORTS, Row, rows

TOP = Path(__file__).resolve().parents[2]
sys.path.append(str(TOP / "tools" / "gate"))
from counts import Counts  # noqa: E402

MOST, MOST_ELSEWHERE = 1.01, 1.05
START = "start with 64 ports"


def instructions(words: list[str], trace: Path) -> int:
    """Returns how many instructions a program executes for a trace. They include the loader's,
    which depend on the environment and on the program's path, so both are fixed here."""
    program = Path(words[0])
    run = [shutil.which("valgrind") or "valgrind", "--tool=callgrind", "--callgrind-out-file=/dev/null"]
    with trace.open("rb") as file:
        ran = subprocess.run([*run, f"./{program.name}", *words[1:]], stdin=file, stdout=subprocess.DEVNULL,
                             stderr=subprocess.PIPE, text=True, check=True, cwd=program.parent, env={})
    found = re.search(r"Collected : (\d+)", ran.stderr)
    if not found:
        sys.exit(f"valgrind reports no count for {words}")
    return int(found.group(1))


def library() -> str:
    """Returns the C library's version and whether it can use AVX2, which changes the counts."""
    found = re.search(r"\bavx2\b", Path("/proc/cpuinfo").read_text())
    return " ".join(platform.libc_ver()) + (" with AVX2" if found else "")


def counted(row: Row, room: Path, sides: list[list[str]]) -> list[float]:
    """Returns the instructions of each program, per measured item of the row."""
    whole, begin, things = row.traces(room, max(1, row.lines // 50))
    return [(instructions(words, whole) - instructions(words, begin)) / things for words in sides]


def counted_start(program: str, room: Path) -> int:
    """Returns the instructions of a start with 64 ports for 128 neighbors, without input."""
    empty = room / "empty"
    empty.write_text("")
    return instructions([program, *MANY, *PORTS], empty)


def counts(program: str, room: Path) -> dict[str, float]:
    found = {row.title: counted(row, room, [[program, *row.words]])[0] for row in rows(program, room)}
    return {**found, START: counted_start(program, room)}


def main() -> int:
    parser = argparse.ArgumentParser(description=(__doc__ or "").splitlines()[0])
    parser.add_argument("--program", default=str(TOP / "crates/lldpa/out/lldpa"), help="the built program")
    program = parser.parse_args().program
    if shutil.which(program) is None:
        parser.error(f"--program: there is no program {program}: make builds it")
    told = json.loads((TOP / "docs/bench.json").read_text())
    saved = {row["title"]: row["instructions"][0] for row in told["rows"]}
    saved[START] = told["start_instructions"]
    most = MOST if told["library"] == library() else MOST_ELSEWHERE
    judged = Counts()
    with tempfile.TemporaryDirectory() as folder:
        now = counts(program, Path(folder))
    for title, count in now.items():
        print(f"{title}: {count:.0f} instructions, {saved[title]:.0f} before")
        judged.that(f"{title} is as fast as before", saved[title] / most <= count <= most * saved[title])
    with tempfile.TemporaryDirectory() as folder:
        judge_calls(Path(folder), most, judged)
    return judged.end()


if __name__ == "__main__":
    sys.exit(main())
