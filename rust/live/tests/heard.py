"""For tests: a socket that receives what a service reports to systemd."""

import os
import select
import socket
import time
from pathlib import Path

from patience import SECONDS


class Heard:
    """A datagram socket for NOTIFY_SOCKET, and the datagrams received so far."""

    def __init__(self, folder: Path) -> None:
        self.path = str(folder / "notify")
        self.socket = socket.socket(socket.AF_UNIX, socket.SOCK_DGRAM)
        self.socket.bind(self.path)
        os.chmod(self.path, 0o777)
        self.datagrams: list[list[str]] = []

    def environment(self, seconds: float = 0) -> dict[str, str]:
        """Returns the environment of a service, with a watchdog of this many seconds unless 0."""
        watched = {"WATCHDOG_USEC": str(int(1e6 * seconds))} if seconds else {}
        return {**os.environ, "NOTIFY_SOCKET": self.path, **watched}

    def next(self, seconds: float = SECONDS) -> list[str]:
        """Returns the lines of the next datagram, or an empty list if none comes in time."""
        if not select.select([self.socket], [], [], seconds)[0]:
            return []
        self.datagrams.append(self.socket.recv(65536).decode().split("\n"))
        return self.datagrams[-1]

    def hears(self, line: str, seconds: float = SECONDS) -> bool:
        """True if a datagram with this line comes within this many seconds."""
        last = time.monotonic() + seconds
        while (left := last - time.monotonic()) > 0:
            if line in self.next(left):
                return True
        return False

    def forget(self) -> None:
        """Skips the datagrams that have arrived."""
        while self.next(0):
            pass

    def close(self) -> None:
        self.socket.close()
