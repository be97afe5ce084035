"""For tests: watches and hinders the system calls of an lldpa-live, with strace."""

import shutil
import unittest
from pathlib import Path
from typing import Sequence

needs_strace = unittest.skipUnless(shutil.which("strace"), "strace: it is not installed")


def watched(path: Path, calls: str, *further: str) -> "list[str]":
    """Returns the words that start a program under strace, which writes these calls to a file. Each
    of `further` changes calls: see `-e inject` in strace(1)."""
    changes = [word for one in further for word in ("-e", f"inject={one}")]
    return ["strace", "-D", "-f", "-qq", "-y", "-s", "64", "-o", str(path), "-e", f"trace={calls}",
            *changes]


def calls_of(path: Path, *names: str) -> Sequence[str]:
    """Returns the lines of the calls with these names."""
    return [line.split(maxsplit=1)[1] for line in path.read_text().splitlines()
            if any(f" {name}(" in line for name in names)]
