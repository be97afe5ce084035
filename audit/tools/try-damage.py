#!/usr/bin/env python3
"""Runs the audit on damaged files, and on files enlarged to 32 MB: plans, lists and others.
Then runs it on the files of audit/tests/shapes.py.

    audit/tools/try-damage.py [--minutes 10] [--seed N]

An audit must take less than 30 seconds of processor time and 500 MB, and must not write through a
symbolic link. LLDPA names the agent. The first line is the seed.
"""
import argparse
import gzip
import os
import pathlib
import random
import sys
import tempfile
import time

TOP = pathlib.Path(__file__).resolve().parents[2]
sys.path[:0] = [str(TOP / folder) for folder in ("audit", "python", "audit/tests", "python/tests", "audit/tools", "tools/gate")]
os.environ.setdefault("LLDPA", str(TOP / "crates" / "lldpa" / "out" / "lldpa"))
import cabling  # noqa: E402
import fabric  # noqa: E402
import rack  # noqa: E402
import shapes  # noqa: E402
import vendors  # noqa: E402
from counts import Counts  # noqa: E402

LARGE = 32 << 20


def samples():
    """Yields files to damage, each with the name of the argument that it replaces in an audit."""
    links = list(fabric.links())[:300]
    yield "plan", fabric.csv_plan(links).encode()
    yield "plan", (b"side_a_device,side_a_type,side_a_name,side_b_device,side_b_type,side_b_name,type,label\n"
                   b"leaf01,dcim.interface,swp1,host01,dcim.interface,eth0,cat6,C1\n" * 2)
    yield "plan", b'graph {\n"leaf01":"swp1" -- "host01":"eth0" [label="C1"]\n}\n'
    yield "plan", f'{{"next": null, "results": [{shapes.cable(1)}, {shapes.cable(2)}]}}'.encode()
    yield "panels", fabric.panels().encode()
    yield "aliases", b"host,port,alias\nhost01,eth0,bond0\nhost01,eth1,bond0\nhost02,,web-00\n"
    for write in (*vendors.FORMS.values(), *cabling.FORMS.values()):
        yield "leaf01", write(vendors.PORTS).encode()
    yield "leaf01", (TOP / "audit" / "tests" / "samples" / "lldpd.walk").read_bytes()
    frames = rack.pcapng({port: rack.frames(port) for port in rack.PORTS[:5]})
    yield from (("leaf01", frames), ("swp1", rack.pcap(rack.frames("swp1"))), ("leaf01", gzip.compress(frames)))


def damaged(octets, dice):
    """Returns a file with pieces that are removed, changed, or repeated many times."""
    for _ in range(dice.choice([1, 1, 2, 4])):
        at = dice.randrange(len(octets) + 1)
        end = min(len(octets), at + dice.choice([0, 1, 2, 4, 16, 64, 256]))
        piece = dice.choice([octets[at:end] * dice.choice([0, 0, 1, 2, 1000]), dice.randbytes(dice.choice([1, 4])),
                             dice.choice([b"\0", b'"', b"[", b"{", b"<", b"\n", b" ", b",", b":", b"\xff", b"\x1f\x8b"])])
        octets = octets[:at] + piece + octets[end:]
    return octets


def enlarged(octets, dice):
    """Returns a file, enlarged to 32 MB by repeating a piece of it; one in five is compressed."""
    octets = gzip.decompress(octets) if octets.startswith(b"\x1f\x8b") and dice.random() < 0.5 else octets
    at = dice.randrange(len(octets))
    end = min(len(octets), at + dice.choice([1, 2, 3, 5, 8, 20, 60, 200, 1000]))
    if dice.random() < 0.5:  # whole lines
        at, end = octets.rfind(b"\n", 0, at) + 1, octets.find(b"\n", end) + 1 or len(octets)
    piece = octets[at:end] or b"x"
    large = octets[:end] + piece * ((LARGE - len(octets)) // len(piece)) + octets[end:]
    return gzip.compress(large, 1) if dice.random() < 0.2 else large


def words_of(room, place, dice):
    """Returns the arguments of an audit in which the damaged file replaces the argument `place`."""
    names = {"plan": room / "plan", "leaf01": room / "list", "panels": room / "panels", "aliases": room / "aliases"}
    names[place] = room / "file"
    words = ["--host", "leaf01", str(names["plan"]), f"swp1={names['swp1']}" if place == "swp1" else str(names["leaf01"])]
    for option in ("panels", "aliases"):
        words += [f"--{option}", str(names[option])] if place == option or dice.random() < 0.5 else []
    return [*words, *dice.choice([[], ["--json"]]), *dice.choice([[], ["--vendor-names"]]),
            "--html", str(room / "page"), "--junit", str(room / "junit")]


class Trial:
    """Runs audits in a folder, counts them, and keeps the most time and memory that one took."""

    def __init__(self, room):
        self.room, self.counts, self.most = pathlib.Path(room), Counts(), [0.0, 0]
        for name, octets in (("plan", fabric.csv_plan(list(fabric.links())[:300])), ("victim", "victim"),
                             ("leaf01", vendors.FORMS["napalm"](vendors.PORTS)), ("panels", fabric.panels()),
                             ("aliases", "host,port,alias\nhost01,eth0,bond0\n")):
            (self.room / name).write_text(octets)

    def run(self, name, words):
        """Runs the audit once; its output files are symbolic links. Returns whether it passes."""
        for output in ("page", "junit"):
            (self.room / output).unlink(missing_ok=True)
            (self.room / output).symlink_to(self.room / "victim")
        ran = shapes.measured(words)
        is_whole = (self.room / "victim").read_text() == "victim"
        self.most = [max(self.most[0], ran.seconds), max(self.most[1], ran.megabytes)]
        faults = [*ran.faults, *([] if is_whole else ["it wrote through a link"])]
        self.counts.that(f"{name}: {', '.join(faults)}: {' '.join(words)}", not faults)
        return not faults


def main():
    parser = argparse.ArgumentParser(description=__doc__.splitlines()[0])
    parser.add_argument("--minutes", type=float, default=10)
    parser.add_argument("--seed", type=int, default=random.SystemRandom().randrange(10**6))
    given = parser.parse_args()
    print(f"seed {given.seed}", flush=True)
    dice, some, end = random.Random(given.seed), list(samples()), time.monotonic() + 60 * given.minutes
    with tempfile.TemporaryDirectory() as room:
        trial = Trial(room)
        while time.monotonic() < end:
            place, octets = dice.choice(some)
            octets = (enlarged if dice.random() < 0.3 else damaged)(octets, dice)
            (trial.room / "file").write_bytes(octets)
            if not trial.run(place, words_of(trial.room, place, dice)):
                pathlib.Path(tempfile.gettempdir(), f"damaged-{given.seed}-{place}").write_bytes(octets[:1 << 20])
        for name, write in {**shapes.SMALL, **shapes.LARGE}.items():
            trial.run(name, write(trial.room))
        print(f"at most {trial.most[0]:.1f} s and {trial.most[1]} MB")
        return trial.counts.end()


if __name__ == "__main__":
    sys.exit(main())
