"""For tests: the two files of a state, in memory."""

import os
import re
import tempfile
import time
from pathlib import Path

from replaced import LONG, Replaced
from served import frame


class State:
    """The files FILE.0 and FILE.1 of an lldpa-live with `--state FILE`."""

    def __init__(self) -> None:
        self.folder = tempfile.TemporaryDirectory(dir="/dev/shm")
        os.chmod(self.folder.name, 0o777)
        self.path = os.path.join(self.folder.name, "state")
        self.files = [Path(f"{self.path}.{number}") for number in range(2)]
        self.words = ("--state", self.path)

    def read(self) -> bytes:
        """Returns the state that is not empty: the other file is emptied once this one is whole."""
        return max((path.read_bytes() for path in self.files if path.exists()), key=len,
                   default=b"")

    def write(self, octets: bytes) -> None:
        """Leaves a state in place of the one that was there."""
        for path, text in zip(self.files, (octets, b"")):
            path.unlink(missing_ok=True)
            path.write_bytes(text)
            path.chmod(0o600)

    def count(self) -> int:
        """Returns how many neighbors it has."""
        return len(re.findall(rb"rx \S+ \d+ \d+\.\d{3}\n", self.read()))


class WithState(Replaced):
    """Tests with a state whose files are removed after the test."""

    def setUp(self) -> None:
        super().setUp()
        self.state = State()
        self.addCleanup(self.state.folder.cleanup)


def forged(count: int) -> "tuple[bytes, bytes, bytes]":
    """Returns the first line of a state, its lines with this many neighbors of eth0, its end."""
    now = time.clock_gettime(time.CLOCK_BOOTTIME)
    frames = [frame(b"\x07n%d" % number, b"\x05p", LONG) for number in range(count)]
    lines = [b"rx eth0 %d %.3f\n%s" % (len(one), time.time(), one) for one in frames]
    return b"# lldpa-live state 2 %.3f %.3f\n" % (time.time(), now), b"".join(lines), b"# end\n"
