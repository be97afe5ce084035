"""For tests: a control group that limits memory, as the unit of the service does."""

from __future__ import annotations

import contextlib
import os
from pathlib import Path
from typing import Optional

ROOT = Path("/sys/fs/cgroup")


class MemoryGroup:
    """A control group of either version. Fails to be made where this system does not let it."""

    def __init__(self, most: int) -> None:
        self.is_old = (ROOT / "memory").is_dir()
        self.path = (ROOT / "memory" if self.is_old else ROOT) / f"lldpa-test-{os.getpid()}"
        if not self.is_old:
            (ROOT / "cgroup.subtree_control").write_text("+memory")
        self.path.mkdir()
        limit = "memory.limit_in_bytes" if self.is_old else "memory.max"
        (self.path / limit).write_text(str(most))

    def enter(self) -> "list[str]":
        """Returns the words that start a program in this group."""
        into = f"echo $$ > {self.path}/cgroup.procs && exec \"$@\""
        return ["sh", "-c", into, "sh"]

    def numbers(self, name: str) -> "dict[str, int]":
        lines = (self.path / name).read_text().splitlines()
        return {key: int(number) for key, number in map(str.split, lines) if number.isdigit()}

    def used(self) -> int:
        """Returns how many octets are used: memory of the programs, files of a tmpfs, and what the
        kernel needs for both. Kept pages of files on a disk, which it takes back, do not count."""
        told = self.numbers("memory.stat")
        if self.is_old:
            kernel = int((self.path / "memory.kmem.usage_in_bytes").read_text())
            return told["rss"] + told.get("shmem", 0) + kernel
        return told["anon"] + told["shmem"] + told.get("kernel", told.get("slab", 0))

    def killed(self) -> int:
        """Returns how many programs the kernel has killed for lack of memory."""
        name = "memory.oom_control" if self.is_old else "memory.events"
        return self.numbers(name)["oom_kill"]

    def close(self) -> None:
        with contextlib.suppress(OSError):
            self.path.rmdir()


def memory_group(most: int) -> Optional[MemoryGroup]:
    """Returns a group with this limit in octets, or None if this system has none."""
    try:
        return MemoryGroup(most)
    except OSError:
        return None
