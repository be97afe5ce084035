"""For checks of the library: runs commands, adds up counts, and builds programs."""
from __future__ import annotations

import os
import pathlib
import subprocess
import sys
import warnings
from typing import Any, Mapping, Sequence

TOP = pathlib.Path(__file__).resolve().parents[2]
sys.path.append(str(TOP / "tools" / "gate"))
from counts import Counts  # noqa: E402

FRONT = TOP / "crates" / "lldpa_c" / "front" / "lldpa.c"
CHECKED = FRONT.with_name("checked.awk")
WARNINGS = ["-pedantic", "-Wall", "-Wextra", "-Werror"]

# The most seconds that a command may take. The longest one proves the library on a slow machine.
SECONDS = 1800


def skip(name: str, what: str) -> None:
    """Says what a check leaves out (pytest.skip would leave out the rest as well). With CI it fails. `name` is the
    missing package or feature of tools/gate/install.sh --list."""
    assert not os.environ.get("CI") or name in ("x86-64", "sanitizers"), f"{name}: {what}"
    warnings.warn(f"left out: {name}: {what}")


def ran(command: Sequence[object], cwd: pathlib.Path | None = None,
        env: Mapping[str, str] | None = None) -> subprocess.CompletedProcess[str]:
    """Runs a command to its end. Returns its status and what it wrote."""
    settings: dict[str, Any] = {"capture_output": True, "text": True, "timeout": SECONDS}
    return subprocess.run([str(word) for word in command], stdin=subprocess.DEVNULL, cwd=cwd,
                          env=env, check=False, **settings)


def fault_of(command: Sequence[object]) -> str | None:
    """Runs a command. Returns None if the status is 0, or else the status and what was written."""
    ended = ran(command)
    if ended.returncode == 0:
        return None
    return f"status {ended.returncode}, {(ended.stderr or ended.stdout)[-1500:]}"


def count_of(command: Sequence[object], what: str, counts: Counts) -> None:
    """Runs a program, which ends with status 0 if all its checks held, and says nothing on standard error."""
    ended = ran(command)
    fault = f"status {ended.returncode}, {ended.stdout[-500:]} {ended.stderr[-1500:]}"
    counts.judge(fault if ended.returncode or ended.stderr or not ended.stdout else None, what)


def write_front(folder: pathlib.Path, header: str, front: str, rules: str = CHECKED.read_text()) -> None:
    """Writes the sources of a front as library.sh makes them: lldpa.h, checked.h and front.c."""
    (folder / "lldpa.h").write_text(header)
    (folder / "front.c").write_text(front)
    declared = ran(["cc", "-E", "-P", folder / "lldpa.h"]).stdout
    made = subprocess.run(["awk", rules], input=declared, stdout=subprocess.PIPE, text=True, check=True)
    (folder / "checked.h").write_text(made.stdout)


class Library:
    """The library in `folder`, and a folder `room` for programs that are built with the library."""

    def __init__(self, folder: pathlib.Path, room: pathlib.Path):
        self.folder, self.room = folder, room

    def compiled(self, source: pathlib.Path, name: str, *flags: str) -> str | None:
        """Builds a program with the library. Returns the fault, or None."""
        return fault_of(["cc", "-std=c99", "-O2", "-g", *WARNINGS, *flags, f"-I{self.folder}",
                         source, self.folder / "liblldpa.a", "-o", self.room / name])

    def shared(self) -> pathlib.Path | None:
        found = self.folder / "liblldpa.so.1"
        return found if found.is_file() else None
