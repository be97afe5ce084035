"""Measures other programs that read frames and captures, and lldpa's Python programs.

    python3 tools/bench/bench_captures.py [--times 3] [--all] [TREE ..]

Measures audits of 100,000 and of 200,000 links by NAPALM's lists of 10,000 switches, and an audit by the
files of 47,600 hosts. Each source tree is measured in turn: a folder, or a commit of this repository."""
from __future__ import annotations

import argparse
import os
import random
import re
import shutil
import struct
import subprocess
import sys
import tempfile
import time
from pathlib import Path
from statistics import median
from typing import Callable, Iterator, NamedTuple, Sequence, Tuple

TOP = Path(__file__).resolve().parents[2]
sys.path.append(str(TOP / "audit" / "tools"))
import cabling  # noqa: E402
import vendors  # noqa: E402
from bench_rows import mix  # noqa: E402

AUDIT = "an audit of 100,000 links from neighbor lists of 2,000 hosts"
# the forms of the lists of larger networks, and what their audits write
FORMS = {"show": cabling.show_of, "napalm": vendors.FORMS["napalm"]}
OUTPUTS = ([], ["--json"], ["--junit"], ["--html"])
LINKS = (100_000, 200_000)
PODS = 100  # of 476 hosts each
SWITCHES = 10_000
Packets = Iterator[Tuple[bytes, int]]  # each with its time in milliseconds
PCAP = bytes.fromhex("d4c3b2a1020004000000000000000000ffff000001000000")


class Spent(NamedTuple):
    """What a run of a program took: seconds of processors and by the clock, and its peak memory in MB."""
    processor: float
    clock: float
    megabytes: float


def seconds(words: list[str], trace: Path) -> float:
    """Returns the processor time of one run of a program with this input."""
    return spent(words, trace).processor


def spent(words: list[str], trace: Path = Path(os.devnull), status: int = 0) -> Spent:
    """Returns what a program takes, which shall end with this status. (The kernel's `ru_maxrss` is at
    least the memory of this program.)"""
    began = time.monotonic()
    with trace.open("rb") as file:
        child = subprocess.Popen(words, stdin=file, stdout=subprocess.DEVNULL, stderr=subprocess.DEVNULL)
    ended, kilobytes = 0, ["0"]
    while not ended:
        kilobytes += re.findall(r"VmHWM:\s+(\d+)", Path(f"/proc/{child.pid}/status").read_text())
        time.sleep(0.01)
        ended, child.returncode, usage = os.wait4(child.pid, os.WNOHANG)
    if os.waitstatus_to_exitcode(child.returncode) != status:
        sys.exit(f"{words} ended with {os.waitstatus_to_exitcode(child.returncode)}")
    clock = time.monotonic() - began
    return Spent(usage.ru_utime + usage.ru_stime, clock, int(kilobytes[-1]) / 1024)


def write_capture(path: Path, packets: Packets) -> None:
    with path.open("wb") as file:
        file.write(PCAP)
        for octets, at in packets:
            head = struct.pack("<IIII", at // 1000, at % 1000 * 1000, len(octets), len(octets))
            file.write(head + octets)


def small_frames() -> Packets:
    """Returns 200 MB of small frames of other protocols, a thousand frames a second."""
    rng = random.Random(3)
    octets = [rng.randbytes(127) for _ in range(100)]
    return ((octets[i % 100], i) for i in range(1_400_000))


def lldp_frames() -> Packets:
    """Returns 100,000 typical LLDP frames, a hundred frames a second."""
    frames = mix(992, 32)
    return ((frames[i % len(frames)], 10 * i) for i in range(100_000))


def other_readers(room: Path, times: int) -> list[str]:
    """Runs each installed tool `times` times on typical frames. Returns a line for each tool."""
    frames, capture = mix(992, 32), room / "mix.pcap"
    write_capture(capture, ((octets, 0) for octets in frames * 20))
    lines = []
    for tool, words in (("tcpdump", ["-nnv", "-r"]), ("tshark", ["-V", "-r"])):
        if shutil.which(tool):
            used = min(spent([tool, *words, str(capture)]).processor for _ in range(times))
            lines.append(f"a typical frame, read and printed by {tool}: {1e9 * used / (20 * len(frames)):.0f} ns")
    return lines


CAPTURES: tuple[tuple[str, Callable[[], Packets]], ...] = (
    ("a capture of 1.4 million small frames, none LLDP's", small_frames),
    ("a capture of 100,000 LLDP frames", lldp_frames))
CAPTURE_READERS = (("lldpa-capture", [sys.executable, str(TOP / "bin/lldpa-capture")]),
                   ("tcpdump", ["tcpdump", "-nnv", "ether proto 0x88cc", "-r"]),
                   ("tshark", ["tshark", "-V", "-Y", "lldp", "-r"]))


def capture_row(title: str, capture: Path, times: int) -> str:
    """Runs each installed reader `times` times on a capture. Returns a line with the results."""
    readers = [(name, words) for name, words in CAPTURE_READERS if shutil.which(words[0])]
    runs: dict[str, list[Spent]] = {name: [] for name, _ in readers}
    for _ in range(times):
        for name, words in readers:
            runs[name].append(spent([*words, str(capture)]))
    return f"{title}: {', '.join(f'{name} {told(ran)}' for name, ran in runs.items())}"


def told(ran: Sequence[Spent]) -> str:
    """Tells the times of some runs, each as the least one and the median, and their greatest memory. Where
    processes work at the same time, users wait by the clock, and each process is slower for the others."""
    processor, clock = (f"{min(some):.2f} s (median {median(some):.2f})" for some in zip(*(run[:2] for run in ran)))
    return f"{processor}, {clock} by the clock and {max(run.megabytes for run in ran):.0f} MB"


def capture_rows(room: Path, times: int) -> list[str]:
    lines = []
    for title, packets in CAPTURES:
        capture = room / "capture.pcap"
        write_capture(capture, packets())
        lines.append(capture_row(title, capture, times))
    return lines


def audit_of_cabling(room: Path) -> list[str]:
    """Returns a line with the time and the memory of an audit of 100,000 links."""
    words = cabling.write(room, 50)
    ran = min((cabling.shapes.measured(words) for _ in range(3)), key=lambda ran: ran.seconds)
    return [f"{AUDIT}: {ran.seconds:.1f} s, {ran.megabytes} MB"]


def write_network(room: Path, links: int, form: str) -> list[str]:
    """Writes the plan of a network of SWITCHES switches, and a list of each, in a folder. One cable of
    a hundred is exchanged. Returns the arguments of an audit."""
    dice = random.Random(links)
    ends = [(f"sw{host}", f"swp{port}") for host in range(SWITCHES) for port in range(2 * links // SWITCHES)]
    dice.shuffle(ends)
    planned = list(zip(ends[::2], ends[1::2]))
    plan, seen = room / f"{form}{links}.csv", room / f"{form}{links}"
    plan.write_text("host,port,peer,peer_port\n" + "".join(f"{a},{b},{c},{d}\n" for (a, b), (c, d) in planned))
    for at in range(0, links // 100, 2):
        (one, other), (third, fourth) = planned[at:at + 2]
        planned[at:at + 2] = (one, fourth), (third, other)
    heard: dict[str, dict[str, list[tuple[str, str]]]] = {}
    for one, other in [*planned, *[pair[::-1] for pair in planned]]:
        heard.setdefault(one[0], {})[one[1]] = [other]
    seen.mkdir()
    for host, ports in heard.items():
        (seen / f"{host}.json").write_text(FORMS[form](ports))
    return [str(plan), str(seen)]


def write_fabric(room: Path, pods: int) -> list[str]:
    """Writes the plan of a fabric, and a list of each switch and server, in a folder. Returns the arguments of an
    audit."""
    folder = room / "fabric"
    folder.mkdir()
    return cabling.write(folder, pods, hosts="")


def networks(room: Path, sizes: Sequence[int], forms: Sequence[str], pods: int) -> Iterator[tuple[str, list[str]]]:
    """Yields networks, each as its name and as the arguments of an audit."""
    for links in sizes:
        for form in forms:
            yield f"{links:,} links, {form}", write_network(room, links, form)
    words = write_fabric(room, pods)
    yield f"{len(os.listdir(words[-1])):,} files of hosts, show", words


def audits(room: Path, words: list[str], output: list[str], programs: list[str], times: int) -> str:
    """Audits a network by each program in turn, and begins with another one each time, since hosts slow down while
    they are busy. Returns each one's times and greatest memory."""
    file = [str(room / "file")] if output not in ([], ["--json"]) else []
    runs: dict[str, list[Spent]] = {program: [] for program in programs}
    for turn in range(times):
        first = turn % len(programs)
        for program in programs[first:] + programs[:first]:
            # an audit that finds faults ends with 1
            runs[program].append(spent([sys.executable, program, *output, *file, *words], status=1))
    return ", ".join(told(ran) for ran in runs.values())


def program_of(tree: str, room: Path) -> str:
    """Returns the path of lldpa-audit in a source tree, which is a folder or a commit of this repository."""
    folder = Path(tree)
    if not folder.is_dir():
        folder = room / "trees" / tree
        folder.mkdir(parents=True, exist_ok=True)
        words = ["git", "-C", str(TOP), "archive", tree, "bin", "audit", "python"]
        archive = subprocess.run(words, stdout=subprocess.PIPE, check=False)
        if archive.returncode:
            sys.exit(f"{tree} is neither a folder nor a commit")
        subprocess.run(["tar", "-x", "-C", str(folder)], input=archive.stdout, check=True)
    for part in ("audit", "python"):  # no run shall compile, which takes as long as 1,000 files
        subprocess.run([sys.executable, "-I", "-m", "compileall", "-q", str(folder / part)], check=True)
    return str(folder / "bin" / "lldpa-audit")


def main() -> None:
    parser = argparse.ArgumentParser(description="Measures audits of large networks.")
    parser.add_argument("trees", metavar="TREE", nargs="*", default=[str(TOP)])
    parser.add_argument("--times", type=int, default=3, help="how many times each audit runs (default: 3)")
    parser.add_argument("--all", action="store_true", help="also lists of our own form, and each kind of output")
    parser.add_argument("--links", type=int, nargs="+", default=LINKS, help="how many links (multiples of 5,000)")
    parser.add_argument("--pods", type=int, default=PODS, help="how many pods the hosts are in (default: 100)")
    given = parser.parse_args()
    forms, outputs = (tuple(FORMS), OUTPUTS) if given.all else (("napalm",), OUTPUTS[:1])
    with tempfile.TemporaryDirectory() as folder:
        room = Path(folder)
        programs = [program_of(tree, room) for tree in given.trees]
        for name, words in networks(room, given.links, forms, given.pods):
            for output in outputs:
                line = audits(room, words, output, programs, given.times)
                print(f"an audit of {' '.join([name, *output])}: {line}", flush=True)


if __name__ == "__main__":
    main()
