#!/usr/bin/env python3
"""Measures the figures that README shows.

    tools/bench/figures.py [NAME..]

Without a NAME all are measured, in five minutes:
    memory      what lldpa-live holds in memory on eight links with a neighbor each, with metrics
                and an open `lldpa-ctl watch`; and what lldpd holds beside it
    time        the processor time for a typical received frame, as a part of plain C's
    flood       how many hostile frames a second come while two held neighbors stay
`memory` and `flood` need root, ip, and lldpa-live, which tools/release/live.sh builds; `time` needs
the program and a C compiler.
"""
from __future__ import annotations

import argparse
import pathlib
import subprocess
import sys
import tempfile
import time
import unittest

TOP = pathlib.Path(__file__).resolve().parents[2]
sys.path[:0] = [str(TOP / name) for name in ("python", "python/tests", "rust/live/tests")]
import bench  # noqa: E402
import test_load_floods  # noqa: E402
from loads import family, figure  # noqa: E402
from patience import eventually  # noqa: E402
from real_lldpd import Lldpd, shutil  # noqa: E402
from running_live import OnLinks  # noqa: E402
from served import CTL, PROGRAM, numbered  # noqa: E402

FUNCTION = r"^\s*(?:pub(?:\(\w+\))? )?(?:const )?fn \w+"
LINKS = 8
SETTLED = 35  # seconds


def resident(pid: int) -> float:
    """Returns the resident memory, in MB, of a process and its descendants."""
    told = [pathlib.Path(f"/proc/{one}/status").read_text() for one in family(pid)]
    return sum(int(text.split("VmRSS:")[1].split()[0]) for text in told) / 1024


class Memory(OnLinks):
    links = LINKS

    def test_memory(self) -> None:
        ends = [f"eth{i}" for i in range(LINKS)]
        live = self.live(*ends)
        lldpd = Lldpd(self.wires.here, self.folder, "-I", ",".join(ends)) if shutil.which("lldpd") else None
        for i in range(LINKS):
            self.peer(f"peer{i}").send(numbered(i))
        self.assertTrue(eventually(lambda: live.neighbors(ends[-1])))
        watch = subprocess.Popen([CTL, "--control", live.control, "watch"], stdout=subprocess.DEVNULL)
        self.addCleanup(watch.wait)
        self.addCleanup(watch.terminate)
        time.sleep(SETTLED)
        beside = f"lldpd {resident(lldpd.process.pid):.1f} MB" if lldpd else "lldpd is not installed"
        figure(self, f"lldpa-live {resident(live.process.pid):.1f} MB, {beside}")
        if lldpd:
            lldpd.close()


class Time(unittest.TestCase):
    def test_time(self) -> None:
        with tempfile.TemporaryDirectory() as name:
            room = pathlib.Path(name)
            row = next(row for row in bench.rows(PROGRAM, room) if "typical frame, 32" in row.title)
            ours, plain, *_ = bench.by_turns(row, room, row.sides(PROGRAM, bench.compiled(room)), 5)
        figure(self, f"{row.title}: {ours / plain:.2f} of the time of plain C")


TESTS = {"memory": (Memory, "test_memory"), "time": (Time, "test_time"),
         "flood": (test_load_floods.Floods, "test_of_as_many_frames_as_can_be_sent")}


def main() -> int:
    parser = argparse.ArgumentParser(description=__doc__, formatter_class=argparse.RawDescriptionHelpFormatter)
    parser.add_argument("names", nargs="*", metavar="NAME")
    names = parser.parse_args().names or TESTS
    for name in names:
        if name not in TESTS:
            parser.error(f"there is no figure {name}, but {', '.join(TESTS)}")
    suite = unittest.TestSuite(TESTS[name][0](TESTS[name][1]) for name in names)
    return 0 if unittest.TextTestRunner(verbosity=0).run(suite).wasSuccessful() else 1


if __name__ == "__main__":
    sys.exit(main())
