"""For tests: a systemd that boots in a container, without a network of its own and without Debian's archive."""

from __future__ import annotations

import os
import shutil
import subprocess
import sys
import tempfile
import uuid
from pathlib import Path
from typing import Optional

from patience import HANGS, eventually
from wires import Wires

NSPAWN = "systemd-nspawn"
# systemd needs control groups of version 2, which some hosts do not mount. The container gets a group of its own, $1, so
# that two containers do not meet, and the shell removes it.
BOOT = """
mount --make-rprivate / && mount -t proc proc /proc || exit
umount -R -l /sys/fs/cgroup
mount -t cgroup2 none /sys/fs/cgroup && mkdir "/sys/fs/cgroup/$1" || exit
(echo 0 > "/sys/fs/cgroup/$1/cgroup.procs" && shift && exec "$@")
find "/sys/fs/cgroup/$1" -depth -type d -exec rmdir {} +
"""
USERS = "root:x:0:0:root:/root:/bin/sh\nnobody:x:65534:65534:nobody:/:/usr/sbin/nologin\n"
GROUPS = "root:x:0:\nnogroup:x:65534:\n"


def parent_of(process: Path) -> int:
    """Returns the parent of a process, by its folder in /proc, or 0 if it has ended."""
    try:
        return int((process / "stat").read_text().rpartition(")")[2].split()[1])
    except OSError:
        return 0


def child_of(parent: Optional[int]) -> Optional[int]:
    return next((int(process.name) for process in Path("/proc").glob("[0-9]*")
                 if parent and parent_of(process) == parent), None)


class Booted:
    """A container with this host's /usr, which it cannot change, a new and small /etc, and the links of `wires.here`.
    systemd starts nothing of this host but its own basic services."""

    def __init__(self, wires: Wires, *bound: str) -> None:
        """Each of `bound` is a path of this host and one of the container, joined by a colon."""
        self.bound = bound
        self.folder = Path(tempfile.mkdtemp(prefix="lldpa-booted-"))
        self.root = self.folder / self.folder.name
        self.said = self.folder / "said"
        self.wires = wires
        self.process: Optional[subprocess.Popen[bytes]] = None
        for name in ("usr", "var", "tmp", "run", "proc", "sys", "dev", "root", "opt", "etc/systemd/system"):
            (self.root / name).mkdir(parents=True)
        for link in Path("/").iterdir():
            if link.is_symlink() and os.readlink(link).lstrip("/").startswith("usr/"):
                (self.root / link.name).symlink_to(f"usr/{link.name}")
        etc = self.root / "etc"
        shutil.copy("/etc/os-release", etc)
        if Path("/etc/alternatives").is_dir():  # Debian's awk
            shutil.copytree("/etc/alternatives", etc / "alternatives", symlinks=True)
        for name, text in (("machine-id", uuid.uuid4().hex), ("passwd", USERS), ("group", GROUPS),
                           ("systemd/journald.conf", "[Journal]\nStorage=volatile\n")):  # so that / can become read-only
            (etc / name).write_text(text)
        (etc / "systemd/system/default.target").symlink_to("/usr/lib/systemd/system/basic.target")

    def boot(self) -> str:
        """Boots. Returns an empty text, or why it does not."""
        words = [NSPAWN, "--quiet", "--register=no", "--keep-unit", f"--directory={self.root}", "--boot",
                 f"--network-namespace-path=/run/netns/{self.wires.here}", "--bind-ro=/usr",
                 *(f"--bind-ro={paths}" for paths in self.bound)]
        with self.said.open("wb") as said:
            self.process = subprocess.Popen(
                ["unshare", "--mount", "--pid", "--fork", "--kill-child", "sh", "-c", BOOT, "sh",
                 self.folder.name, *words], stdin=subprocess.DEVNULL, stdout=said, stderr=said)
        eventually(lambda: self.is_up() or self.process.poll() is not None, HANGS)
        return "" if self.is_up() else self.said.read_text(errors="replace")[-300:]

    def first(self) -> Optional[int]:
        """Returns the container's first process: unshare runs the shell, and the shell systemd-nspawn."""
        return child_of(child_of(child_of(self.process.pid))) if self.process else None

    def is_up(self) -> bool:
        return self.run("systemctl", "is-active", "basic.target").returncode == 0

    def run(self, *words: str) -> subprocess.CompletedProcess[str]:
        """Runs a command in the container."""
        into = ["nsenter", "--all", f"--target={self.first() or 0}"]
        return subprocess.run([*into, *words], stdin=subprocess.DEVNULL, capture_output=True, text=True,
                              timeout=HANGS, check=False)

    def show(self, unit: str, name: str) -> str:
        """Returns a property of a unit."""
        return self.run("systemctl", "show", "--value", "-p", name, unit).stdout.strip()

    def close(self) -> None:
        if self.process:
            self.run("systemctl", "poweroff", "--force", "--force")
            try:
                self.process.wait(HANGS)
            except subprocess.TimeoutExpired:
                self.process.kill()
        shutil.rmtree(self.folder)


def main() -> int:
    """Tries whether systemd boots here: the status is 0 if it does."""
    wires = Wires()
    container = Booted(wires)
    try:
        fault = container.boot()
    finally:
        container.close()
        wires.close()
    print(fault or "it boots")
    return 1 if fault else 0


if __name__ == "__main__":
    sys.exit(main())
