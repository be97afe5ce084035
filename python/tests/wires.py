"""For tests on real links: two namespaces, joined by veth pairs, and senders in them."""

import contextlib
import ctypes
import os
import shutil
import socket
import subprocess
import sys
import tempfile
import time
from pathlib import Path
from typing import Iterator, Optional, Tuple

from patience import SECONDS, eventually

CLONE_NEWNET = 0x40000000


def ip(*words: str) -> None:
    subprocess.run(["ip", *words], check=True, capture_output=True)


@contextlib.contextmanager
def inside(namespace: str) -> Iterator[None]:
    """Lets this thread open sockets and start programs in a namespace."""
    libc = ctypes.CDLL(None, use_errno=True)
    with open("/proc/thread-self/ns/net") as own, open(f"/run/netns/{namespace}") as other:
        if libc.setns(other.fileno(), CLONE_NEWNET):
            raise OSError(ctypes.get_errno(), "setns")
        try:
            yield
        finally:
            libc.setns(own.fileno(), CLONE_NEWNET)


class Wires:
    """Links that join eth0, eth1 .. in the namespace `here` to peer0, peer1 .. in `there`, and a
    folder that other users may enter."""

    numbers = iter(range(1000))

    def __init__(self, links: int = 1) -> None:
        number = f"{os.getpid()}-{next(self.numbers)}"
        self.here, self.there = f"lldpa-here-{number}", f"lldpa-there-{number}"
        self.folder = Path(tempfile.mkdtemp())
        self.folder.chmod(0o755)
        for name in (self.here, self.there):
            ip("netns", "add", name)
            ip("-n", name, "link", "set", "lo", "up")
        for i in range(links):
            self.make_link(i)
        eventually(self.all_up)

    def add_link(self, i: int) -> None:
        """Makes another link, and waits until all links are up."""
        self.make_link(i)
        eventually(self.all_up)

    def all_up(self) -> bool:
        """True if both ends of each link are up. Before that, the kernel drops what is sent."""
        shown = [subprocess.run(["ip", "-n", name, "-br", "link"], capture_output=True, text=True)
                 for name in (self.here, self.there)]
        ends = [line.split() for run in shown for line in run.stdout.splitlines() if "@" in line]
        return all(words[1] == "UP" for words in ends)

    def make_link(self, i: int) -> None:
        """Makes a link and sets both ends up."""
        ip("link", "add", f"eth{i}", "netns", self.here, "type", "veth",
           "peer", "name", f"peer{i}", "netns", self.there)
        for name, end in ((self.here, f"eth{i}"), (self.there, f"peer{i}")):
            ip("-n", name, "link", "set", end, "up")

    def add_guest(self, name: str, far: str) -> None:
        """Makes a further link, of other names, as a virtual machine does. Sets both ends up."""
        ip("link", "add", name, "up", "netns", self.here, "type", "veth", "peer", "name", far,
           "netns", self.there)
        ip("-n", self.there, "link", "set", far, "up")

    def side(self, end: str) -> str:
        return self.there if end.startswith(("peer", "far")) else self.here

    def set_link(self, end: str, *words: str) -> None:
        """Changes an end of a link: `set_link("eth0", "down")` sets eth0 down."""
        ip("-n", self.side(end), "link", "set", end, *words)

    def remove_link(self, end: str) -> None:
        ip("-n", self.side(end), "link", "del", end)

    def address(self, end: str) -> bytes:
        shown = subprocess.run(["ip", "-n", self.side(end), "-br", "link", "show", end], text=True,
                               capture_output=True, check=True).stdout
        return bytes.fromhex(shown.split()[2].replace(":", ""))

    def close(self) -> None:
        for name in (self.here, self.there):
            subprocess.run(["ip", "netns", "del", name], check=False)
        shutil.rmtree(self.folder)


FLOOD = """
import socket, sys
sender = socket.socket(socket.AF_PACKET, socket.SOCK_RAW)
sender.bind((sys.argv[1], 0))
frames = [bytes.fromhex(line) for line in sys.stdin.read().split()]
for number in range(int(sys.argv[2])):
    try:
        sender.send(frames[number % len(frames)])
    except OSError:
        pass
"""


def flood(wires: Wires, end: str, frames: list[bytes], count: int) -> subprocess.Popen[bytes]:
    """Starts a program that sends these frames in turn, `count` in all, as fast as it can."""
    with inside(wires.there):
        sender = subprocess.Popen([sys.executable, "-c", FLOOD, end, str(count)],
                                  stdin=subprocess.PIPE)
    assert sender.stdin is not None
    sender.stdin.write("\n".join(frame.hex() for frame in frames).encode())
    sender.stdin.close()
    return sender


class Peer:
    """Sends and receives LLDP frames at an end of a link."""

    def __init__(self, wires: Wires, end: str) -> None:
        with inside(wires.side(end)):
            self.socket = socket.socket(socket.AF_PACKET, socket.SOCK_RAW, socket.htons(0x88CC))
            self.socket.bind((end, 0x88CC))

    def send(self, octets: bytes) -> None:
        self.socket.send(octets)

    def hears(self, seconds: float = SECONDS, ttl: Optional[int] = None) -> Optional[bytes]:
        """Returns the next frame (with this `ttl`, if given), or None if none comes in time."""
        last = time.monotonic() + seconds
        while (left := last - time.monotonic()) > 0:
            self.socket.settimeout(left)
            with contextlib.suppress(OSError):  # none in time, or the end is down
                octets, address = self.socket.recvfrom(2000)
                if address[2] != socket.PACKET_OUTGOING and ttl in (None, ttl_of(octets)):
                    return octets
        return None

    def close(self) -> None:
        self.socket.close()


def tlvs_of(octets: bytes) -> Iterator[Tuple[int, bytes]]:
    """Yields the type and the body of each TLV, up to the End TLV or an incomplete TLV."""
    place = 14
    while place + 2 <= len(octets):
        head = int.from_bytes(octets[place:place + 2], "big")
        place += 2 + head % 512
        if head >> 9 == 0 or place > len(octets):
            return
        yield head >> 9, octets[place - head % 512:place]


def ttl_of(octets: bytes) -> int:
    return int.from_bytes(dict(tlvs_of(octets))[3][:2], "big")
