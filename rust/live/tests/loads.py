"""For tests under load: senders, busy processors, signs of life, and figures that are printed."""

import contextlib
import json
import os
import shutil
import socket
import struct
import subprocess
import sys
import time
import unittest
from pathlib import Path
from typing import Iterator, Optional, Sequence

from heard import Heard
from real_lldpd import Lldpd
from served import numbered, tlv
from wires import Peer, Wires, inside, ttl_of

SO_TIMESTAMPNS = 35  # asm-generic/socket.h
SENDER = str(Path(__file__).with_name("sender.py"))
MOST_TLVS = 200


def figure(case: unittest.TestCase, text: str) -> None:
    """Prints what a test measured, also if the test passes."""
    print(f"figure: {case.id().split('.', 1)[1]}: {text}", flush=True)


class Sender:
    """A program that sends frames at some ends until the test is over."""

    def __init__(self, case: unittest.TestCase, wires: Wires, ends: Sequence[str],
                 frames: Sequence[bytes], rate: int = 0) -> None:
        self.wires, self.end = wires, ends[0]
        with inside(wires.there):
            self.process = subprocess.Popen([sys.executable, SENDER, str(rate), *ends],
                                            stdin=subprocess.PIPE)
        case.addCleanup(self.stop)
        assert self.process.stdin is not None
        self.process.stdin.write(b"".join(one.hex().encode() + b"\n" for one in frames))
        self.process.stdin.close()
        self.began, self.before = time.monotonic(), self.sent()

    def sent(self) -> int:
        """Returns how many frames the first end has sent so far."""
        shown = subprocess.run(["ip", "-n", self.wires.there, "-s", "-j", "link", "show", self.end],
                               capture_output=True, check=True).stdout
        return int(json.loads(shown)[0]["stats64"]["tx"]["packets"])

    def rate(self) -> float:
        """Returns how many frames a second the first end has sent."""
        return (self.sent() - self.before) / (time.monotonic() - self.began)

    def stop(self) -> None:
        self.process.kill()
        self.process.wait()


class Beside:
    """A real lldpd that listens at the same ports, if it is installed."""

    def __init__(self, case: unittest.TestCase, wires: Wires, ports: Sequence[str]) -> None:
        self.lldpd: Optional[Lldpd] = None
        if shutil.which("lldpd"):
            self.lldpd = Lldpd(wires.here, wires.folder, "-r", "-I", ",".join(ports))
            case.addCleanup(self.lldpd.close)
            self.lldpd.tell("configure system max-neighbors 128")

    def has(self, *names: str) -> str:
        """Says which of these port IDs lldpd has, and how long its answer took."""
        if self.lldpd is None:
            return "lldpd is not installed"
        began = time.monotonic()
        shown = self.lldpd.ask("-f", "keyvalue", "show", "neighbors").decode()
        there = [name for name in names if f"={name}\n" in shown]
        return f"lldpd has {' '.join(there) or 'none'} after {time.monotonic() - began:.2f} s"

    def worked(self) -> float:
        """Returns how many seconds of processor time lldpd has used."""
        return sum(map(worked, family(self.lldpd.process.pid))) if self.lldpd else 0.0


def worked(pid: int) -> float:
    """Returns how many seconds of processor time a process has used, with all its threads."""
    tasks = Path(f"/proc/{pid}/task").iterdir()
    return sum(int(task.joinpath("schedstat").read_text().split()[0]) for task in tasks) / 1e9


def family(pid: int) -> Iterator[int]:
    """Yields a process and all its descendants."""
    yield pid
    for task in Path(f"/proc/{pid}/task").iterdir():
        for child in task.joinpath("children").read_text().split():
            yield from family(int(child))


@contextlib.contextmanager
def full_load(count: int = 0) -> Iterator[None]:
    """Keeps all processors busy, with two programs for each. If `count` is given, the test and all
    that it starts have only this many processors, and each of them is busy once."""
    before = os.sched_getaffinity(0)
    os.sched_setaffinity(0, sorted(before)[:count] if count else before)
    busy = [subprocess.Popen([sys.executable, "-c", "while True: pass"])
            for _ in range(count or 2 * len(before))]
    try:
        yield
    finally:
        for one in busy:
            one.kill()
            one.wait()
        os.sched_setaffinity(0, before)


def dear(number: int, port: int = 0, tlvs: int = MOST_TLVS) -> bytes:
    """Returns a frame with this many TLVs of different organizations. All their values change with
    the number, while the neighbor stays the same."""
    value = (number % 256).to_bytes(1, "big")
    further = (tlv(127, bytes([0, port, one, 1]) + value) for one in range(tlvs))
    return numbered(port, 120, *further)


class Signs:
    """Receives what a service reports to systemd, and when each sign of life came."""

    def __init__(self, heard: Heard) -> None:
        self.heard, self.moments = heard, [time.time()]
        heard.socket.setsockopt(socket.SOL_SOCKET, SO_TIMESTAMPNS, 1)
        heard.socket.setblocking(False)

    def take(self) -> None:
        """Notes the signs of life that have come, each with the kernel's time stamp."""
        with contextlib.suppress(BlockingIOError):
            while True:
                octets, notes, _, _ = self.heard.socket.recvmsg(65536, 100)
                if b"WATCHDOG=1" in octets:
                    self.moments.append(stamp_of(notes[0][2]))

    def longest(self) -> float:
        """Returns the longest time without a sign, up to now."""
        self.take()
        moments = [*self.moments, time.time()]
        return max(after - before for before, after in zip(moments, moments[1:]))


def stamp_of(note: bytes) -> float:
    seconds, nanoseconds = struct.unpack("ll", note)
    return float(seconds + nanoseconds / 1e9)


def stamped(peer: Peer) -> None:
    """Lets a peer get the moment at which each frame came (wall clock)."""
    peer.socket.setsockopt(socket.SOL_SOCKET, SO_TIMESTAMPNS, 1)


def goodbye(peer: Peer) -> Optional[float]:
    """Returns when a shutdown frame came to a peer that is `stamped`, or None if none came."""
    peer.socket.settimeout(0.01)
    with contextlib.suppress(OSError):
        while True:
            octets, notes, _, address = peer.socket.recvmsg(2000, 100)
            if address[2] != socket.PACKET_OUTGOING and ttl_of(octets) == 0:
                return stamp_of(notes[0][2])
    return None


def goodbyes(peers: Sequence[Peer], began: float) -> "list[float]":
    """Returns how long after `began` each shutdown frame came. A peer without one is left out."""
    moments = [moment for moment in map(goodbye, peers) if moment is not None]
    return [moment - began for moment in moments]
