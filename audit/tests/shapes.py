"""For tests: measures audits, and has files whose audit once took over 30 seconds or 500 MB."""
import gzip
import json
import subprocess
import sys
import tempfile
import time
from pathlib import Path
from typing import Any, Callable, Iterator, List, Mapping, NamedTuple, Sequence

import rack
from auditing import AUDIT, HEAD, WITH_AGENT
from situations import napalm

SECONDS, MEGABYTES = 30, 500
# limits in seconds are for a machine that adds so many numbers in so many seconds
NUMBERS, NUMBERS_SECONDS = 5_000_000, 0.25
PLAN = f"{HEAD}leaf1,swp1,host01,eth0\n"
SECTION = rack.pcapng({"": []})[:28]
INTERFACE = rack.block(1, b"\1\0\0\0\0\0\0\0")


class Ran(NamedTuple):
    """The result of an audit: what is wrong with it, its output, and what it used."""

    faults: Sequence[str]
    output: str
    seconds: float  # at the usual speed
    megabytes: int


# Runs a program, and writes its seconds, its kilobytes and its status to a file. The kernel counts
# at least the memory of the process that started a program. So a small one starts it.
MEASURE = """
import os, subprocess, sys
child = subprocess.Popen(sys.argv[2:])
_, status, used = os.wait4(child.pid, 0)
told = [used.ru_utime + used.ru_stime, used.ru_maxrss, os.waitstatus_to_exitcode(status)]
with open(sys.argv[1], "w") as file:
    print(*told, file=file)
"""


def slowness() -> float:
    """Returns how many times as long as usual this machine takes now, from 1 to 4."""
    begin = time.process_time()
    total = 0
    for number in range(NUMBERS):
        total += number
    return min(max(1.0, (time.process_time() - begin) / NUMBERS_SECONDS), 4.0)


def measured(words: Sequence[str]) -> Ran:
    """Measures an audit. A wrong status, a traceback, much time or much memory is a fault."""
    before = slowness()
    limited = ["prlimit", f"--cpu={int(2 * SECONDS * before)}", sys.executable, AUDIT, *words]
    with tempfile.NamedTemporaryFile("r") as told:
        output = subprocess.run(
            [sys.executable, "-c", MEASURE, told.name, *limited], stdin=subprocess.DEVNULL,
            stdout=subprocess.PIPE, stderr=subprocess.STDOUT, env=WITH_AGENT, check=False,
            text=True, errors="replace").stdout
        seconds, kilobytes, status = told.read().split()
    used, megabytes = float(seconds) * 2 / (before + slowness()), int(kilobytes) >> 10
    faults = [f"status {status}"] if status not in ("0", "1", "2", "3") else []
    faults += [f"{used:.0f} s"] if used > SECONDS else []
    faults += [f"{megabytes} MB"] if megabytes > MEGABYTES else []
    faults += ["a traceback"] if "Traceback" in output else []
    return Ran(faults, output, used, megabytes)


def cable_between(number: int, one: Sequence[Any], other: Sequence[Any], kind: str = "interface",
                  status: str = "connected") -> Any:
    """Returns a cable as NetBox's API lists it, with a list of ends at each of its two sides."""
    sides = [[{"object_type": f"dcim.{kind}", "object_id": number, "object": {
        "name": port, "device": {"name": host} if host else None}} for host, port in side]
        for side in (one, other)]
    return {"id": number, "type": "cat6", "label": f"L{number}", "status": {"value": status},
            "a_terminations": sides[0], "b_terminations": sides[1]}


def cable(number: int) -> str:
    """Returns a cable between a switch and a server, as JSON text."""
    return json.dumps(cable_between(number, [(f"leaf{number // 48}", f"swp{number % 48}")],
                                    [(f"srv{number}", "eth0")]))


def audit(folder: Path, plan: str, seen: str, *words: str) -> List[str]:
    """Writes a plan and leaf1's list of neighbors, and returns the arguments of their audit."""
    (folder / "plan").write_text(plan)
    (folder / "leaf1").write_text(seen)
    return ["--host", "leaf1", *words, str(folder / "plan"), str(folder / "leaf1")]


def with_aliases(folder: Path, rows: Iterator[str]) -> List[str]:
    """Writes a file of aliases, and returns the arguments of an audit that reads it."""
    with (folder / "aliases").open("w") as file:
        file.write("host,port,alias\n")
        file.writelines(rows)
    return audit(folder, PLAN, napalm("swp1 x eth0"), "--aliases", str(folder / "aliases"))


def with_blocks(folder: Path) -> List[str]:
    """Writes a capture of 6,000,000 interfaces, and returns the arguments of its audit."""
    (folder / "blocks.pcapng").write_bytes(gzip.compress(SECTION + INTERFACE * 6_000_000, 1))
    return [*audit(folder, PLAN, "{}")[:-1], f"leaf1:{folder / 'blocks.pcapng'}"]


# each function writes the files of a shape into a folder, and returns the arguments of an audit
SMALL: Mapping[str, Callable[[Path], List[str]]] = {
    "a label of 32,000 letters": lambda folder: audit(
        folder, f"{HEAD[:-1]},label\nleaf1,swp1,host01,eth0,{'a' * 32_000}\n",
        napalm("swp1 x eth0"), "--html", f"{folder}/page"),
    "names of 500 colons": lambda folder: audit(
        folder, PLAN, napalm("".join(f"swp{at} {':' * 500}x{at} 1{':' * 500}x{at}\n"
                                     for at in range(15_000))), "--vendor-names"),
    "1,000 aliases of one name": lambda folder: with_aliases(
        folder, (f"host01,eth{at},bond0\n" for at in range(1000))),
    "NetBox of 30 MB": lambda folder: audit(
        folder, f'{{"next": null, "results": [{",".join(map(cable, range(75_000)))}]}}', "{}"),
}
LARGE: Mapping[str, Callable[[Path], List[str]]] = {
    "1,000,000 aliases": lambda folder: with_aliases(
        folder, (f"h{at},e,a{at}\n" for at in range(1_000_000))),
    "6,000,000 interface blocks": with_blocks,
    "370,000 unplanned ports": lambda folder: audit(
        folder, PLAN, napalm("".join(f"p{at} h{at} e{at}\n" for at in range(370_000))),
        "--html", f"{folder}/page"),
}
