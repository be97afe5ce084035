"""Counts the instructions of calls of the library, for bench_counts.py: calls.c makes them.

    tools/bench/bench_calls.py PROGRAM [CALL]    prints the counts of the built calls.c, or of one call
    tools/bench/bench_calls.py PROGRAM --save    saves the counts in calls.json

A row fails if a call's instructions are over 1 % more or fewer than the saved count (with another C
library, over 5 %), or more than its aim. The counts are those of one call, without the program's start;
for `show`, those of all pages of `show neighbors`; for `loop`, those of a frame with all that a loop
around the agent does besides.
"""
from __future__ import annotations

import json
import pathlib
import re
import subprocess
import sys

TOP = pathlib.Path(__file__).resolve().parents[2]
sys.path.append(str(TOP / "tools" / "gate"))
from counts import Counts  # noqa: E402

SOURCE = TOP / "tools" / "bench" / "calls.c"
SAVED = TOP / "tools" / "bench" / "calls.json"
LIMITS = (1, 32, 128)
# The calls, each with the number of ports and of neighbors on each. Texts have a number of octets instead.
CALLS = (*((name, 1, limit) for limit in LIMITS for name in ("frame", "news", "due", "neighbor")),
         ("due", 8, 32), ("due", 64, 32), ("due", 64, 128), ("frame-of", 1, 1), ("show", 1, 32), ("show", 1, 128),
         ("loop", 1, 32), ("loop", 8, 32), ("loop", 64, 128), ("worst", 1, 128),
         ("tlv-text", 1, 20), ("escape", 1, 20))
# How often each call is made, if not 1000 times. A loop over all neighbors is counted for a minute.
TIMES = {"show": 1, "loop": 16_380}
# The most instructions of some calls.
AIMS = {"due 1 x 1": 100, "due 1 x 32": 100, "due 1 x 128": 100, "due 64 x 32": 1900, "due 64 x 128": 1900,
        "worst 1 x 128": 60_000, "tlv-text 1 x 20": 600, "escape 1 x 20": 600}
# The most that a frame with news may need, compared with one without.
MOST_NEWS = 1.15
# The most that a neighbor's lines may need in pages with 128 neighbors, compared with pages with 32.
MOST_PAGES = 1.1


def built(room: pathlib.Path) -> pathlib.Path:
    """Builds the library and calls.c, and returns the program. Raises CalledProcessError."""
    folder, program = room / "lib", room / "calls"
    subprocess.run([TOP / "tools/library/library.sh", folder], check=True)
    archive = folder / "liblldpa.a"
    subprocess.run(["cc", "-std=c99", "-O2", f"-I{folder}", SOURCE, archive, "-o", program], check=True)
    return program


def instructions(program: pathlib.Path, words: list[str]) -> int:
    valgrind = ["valgrind", "--tool=callgrind", "--callgrind-out-file=/dev/null"]
    ran = subprocess.run([*valgrind, f"./{program.name}", *words], capture_output=True, text=True,
                         check=True, cwd=program.parent, env={"PATH": "/usr/bin:/bin"})
    found = re.search(r"Collected : (\d+)", ran.stderr)
    if found is None:
        sys.exit(f"valgrind reports no count for {words}")
    return int(found[1])


def counted(program: pathlib.Path, only: str = "") -> dict[str, int]:
    """Returns the instructions of each call."""
    found = {}
    for name, ports, number in CALLS:
        if only in ("", name):
            times = TIMES.get(name, 1000)
            many, none = (instructions(program, [name, str(ports), str(number), str(count)]) for count in (times, 0))
            found[f"{name} {ports} x {number}"] = (many - none) // times
    return found


def judge_calls(room: pathlib.Path, most: float, judged: Counts) -> None:
    """Judges each call by its saved count and by its aim."""
    try:
        program = built(room)
    except subprocess.CalledProcessError as fault:
        judged.judge(fault, "the library and calls.c, which count instructions")
        return
    saved, now = json.loads(SAVED.read_text()), counted(program)
    for call, count in now.items():
        print(f"{call}: {count} instructions, {saved[call]} before")
        judged.that(f"{call} is as fast as before", saved[call] / most <= count <= most * saved[call])
    for call, aim in AIMS.items():
        judged.that(f"{call} needs at most {aim} instructions", now[call] <= aim)
    for limit in LIMITS:
        news, plain = now[f"news 1 x {limit}"], now[f"frame 1 x {limit}"]
        judged.that(f"a frame with news, {limit} neighbors", news <= MOST_NEWS * plain)
    many, few = now["show 1 x 128"] / 128, now["show 1 x 32"] / 32
    judged.that("a show by pages is linear in its lines", many <= MOST_PAGES * few)


def main() -> None:
    only = [word for word in sys.argv[2:] if word != "--save"]
    found = counted(pathlib.Path(sys.argv[1]).resolve(), *only)
    print(json.dumps(found, indent=2))
    if "--save" in sys.argv:
        SAVED.write_text(json.dumps(found, indent=2) + "\n")


if __name__ == "__main__":
    main()
