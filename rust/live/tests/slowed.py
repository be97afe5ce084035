"""For tests: delays system calls of a running process, as a slow disk would."""

import contextlib
import subprocess
from pathlib import Path
from typing import Iterator

from patience import eventually


def is_traced(pid: int) -> bool:
    return "TracerPid:\t0" not in Path(f"/proc/{pid}/status").read_text()


@contextlib.contextmanager
def slow_calls(pid: int, seconds: float, calls: str = "write") -> Iterator[None]:
    """Lets each of these calls of a process take so long: strace stops it before the call."""
    delayed = f"inject={calls}:delay_enter={int(1e6 * seconds)}"
    words = ["strace", "-qq", "-o", "/dev/null", "-p", str(pid), "-e", f"trace={calls}",
             "-e", delayed]
    with subprocess.Popen(words, stderr=subprocess.DEVNULL) as strace:
        try:
            if not eventually(lambda: is_traced(pid)):
                raise AssertionError("strace does not trace the process")
            yield
        finally:
            strace.kill()  # the kernel then lets the process run
