"""For tests: a control socket that answers like lldpa-live, with a real agent."""

from __future__ import annotations

import os
import shutil
import socket
import subprocess
import tempfile
import threading
import unittest
from contextlib import suppress
from pathlib import Path
from typing import Any, ContextManager, Sequence
from unittest import mock

from asking import Client
from lldpa import Agent, Ended, Refused

REPOSITORY = Path(__file__).resolve().parents[2]
PROGRAM = os.environ.get("LLDPA") or str(REPOSITORY / "crates" / "lldpa" / "out" / "lldpa")
BIN = REPOSITORY / "bin"
LIVE = os.environ.get("LLDPA_LIVE") or str(REPOSITORY / "rust" / "live" / "out" / "lldpa-live")
is_built = unittest.skipUnless(os.access(LIVE, os.X_OK),
                               "cargo: tools/release/live.sh builds lldpa-live with it")
os.environ["PATH"] = os.pathsep.join(  # lldpd's lldpcli comes before ours
    [os.path.dirname(PROGRAM), os.environ.get("PATH", os.defpath), str(BIN)])
CTL = str(BIN / "lldpa-ctl")
GROUP_ADDRESS = bytes.fromhex("0180c200000e")
HOSTILE = b"\x1b[31m\r\n\x9b2J\x07"
LIVE_LINES = b"""\
live.began=2026-11-25T09:30:00Z
live.agent=running
live.seconds=77
live.settings-refused=2
live.ports-refused=1
live.recorders=1
live.record-lines-lost=5
""".splitlines()
OF_PORTS = "interface link kernel-drops limit-drops other-frames unsent left-out".split()
for name, values in (("eth0", "present up 7 6 8 4 3"), ("eth1", "awaited down 0 0 0 0 0")):
    LIVE_LINES += [f"live.{name}.{key}={value}".encode()
                   for key, value in zip(OF_PORTS, values.split())]


def ctl(path: str, *words: str, **options: Any) -> subprocess.CompletedProcess[str]:
    return subprocess.run([CTL, "--control", path, *words], check=False, capture_output=True,
                          text=True, **options)


def tlv(kind: int, body: bytes) -> bytes:
    return (kind << 9 | len(body)).to_bytes(2, "big") + body


def frame(chassis: bytes, port: bytes, ttl: int, *further: bytes) -> bytes:
    """Returns a frame of a neighbor. `chassis` and `port` begin with their subtypes."""
    head = GROUP_ADDRESS + bytes.fromhex("02000000000a") + bytes.fromhex("88cc")
    pdu = tlv(1, chassis) + tlv(2, port) + tlv(3, ttl.to_bytes(2, "big")) + b"".join(further)
    return head + pdu + tlv(0, b"")


def counted(lines: Sequence[bytes]) -> bytes:
    """Returns lines of an answer, with their number before them."""
    return b"".join(one + b"\n" for one in [b"=%d" % len(lines), *lines])


def numbered(number: int, ttl: int = 120, *further: bytes) -> bytes:
    """Returns a frame of the neighbor with this number."""
    return frame(b"\x04\x02\0\0\0\0" + bytes([number]), b"\x05p%d" % number, ttl, *further)


class Served:
    """A control socket at `path`, with a real agent that answers."""

    def __init__(self, ports: Sequence[str] = ("eth0", "eth1"), **options: Any) -> None:
        self.folder = tempfile.mkdtemp()
        os.chmod(self.folder, 0o755)
        self.path = os.path.join(self.folder, "control")
        self.waits = False  # whether the agent waits for an interface
        self.asked: list[bytes] = []
        self.hidden: set[bytes] = set()  # questions whose answers are empty
        self.refused = ""  # the reason for which all but shows are refused
        self.changed = threading.Condition()
        self.changes = 0
        self.watched = 0  # how often a client that watches was sent all tables
        self.live_lines = LIVE_LINES
        self.ports = [port.encode() for port in ports]
        self.agent = Agent.start(ports, PROGRAM, receive_only=True, **options)
        self.asking = threading.Lock()
        self.start()

    def start(self) -> None:
        self.listener = socket.socket(socket.AF_UNIX)
        self.listener.bind(self.path)
        self.listener.listen(100)
        self.clients: list[socket.socket] = []
        threading.Thread(target=self.accept, args=[self.listener], daemon=True).start()

    def accept(self, listener: socket.socket) -> None:
        with suppress(OSError):
            while True:
                client, _ = listener.accept()
                self.clients.append(client)
                threading.Thread(target=self.serve, args=[client], daemon=True).start()

    def serve(self, client: socket.socket) -> None:
        """Answers the lines of a client."""
        with suppress(OSError, Ended), client, client.makefile("rb") as lines:
            for line in lines:
                answer = self.answer(line.rstrip(b"\n"))
                if line.startswith(b"watch") and not answer:
                    self.watch(client, line.split()[1:])
                client.sendall(counted(answer))

    def watch(self, client: socket.socket, ports: "list[bytes]") -> None:
        """Sends the tables of ports at each change, as lldpa-live does if a client is too slow."""
        known = -1
        while True:
            with self.changed:
                self.changed.wait_for(lambda: known != self.changes)
                known = self.changes
            lines = [line.encode() for line in self.ask(b"show neighbors")]
            for port in ports or self.ports:
                client.sendall(counted([line for line in lines if line.split(b".")[1] == port]))
            client.sendall(counted([b"live.lost=0"]))
            self.watched += 1

    def answer(self, line: bytes) -> list[bytes]:
        """Answers a line as lldpa-live does."""
        self.asked.append(line)
        if line in self.hidden:
            return []
        if line.split(b" ")[0] in (b"tick", b"rx", b"up", b"down"):
            return [b"error: for lldpa-live alone"]
        if self.refused and not line.startswith(b"show"):
            return [b"error: " + self.refused.encode()]
        if self.waits and line.startswith((b"show", b"watch")):
            self.live_lines = [*LIVE_LINES, b"live.agent=waiting"]
            return [b"error: waiting for an interface: eth0"]
        if line == b"live":
            return self.live_lines
        if line.startswith(b"watch"):
            return []
        try:
            return [text.encode() for text in self.ask(line)]
        except Refused as refused:
            return [b"error: " + refused.text.encode()]

    def ask(self, line: bytes) -> list[str]:
        with self.asking:
            return self.agent.ask(line)

    def frame(self, port: str, octets: bytes) -> None:
        with self.asking:
            self.agent.frame(port, octets)
        self.change()

    def tick(self, seconds: int) -> None:
        with self.asking:
            self.agent.tick(seconds)
        self.change()

    def change(self) -> None:
        with self.changed:
            self.changes += 1
            self.changed.notify_all()

    def client(self) -> Client:
        return Client(self.path)

    def stop(self) -> None:
        """Ends all connections and accepts no more."""
        with suppress(OSError):
            self.listener.shutdown(socket.SHUT_RDWR)
        self.listener.close()
        os.unlink(self.path)
        for client in self.clients:
            with suppress(OSError):
                client.shutdown(socket.SHUT_RDWR)

    def close(self) -> None:
        if os.path.exists(self.path):
            self.stop()
        self.agent.close()
        shutil.rmtree(self.folder)

    def __enter__(self) -> Served:
        return self

    def __exit__(self, *_: object) -> None:
        self.close()


def told_by(served: Served, lines: Sequence[str],
            line: bytes = b"show neighbors") -> ContextManager[object]:
    """Lets an agent answer a line with these lines."""
    ask = served.ask
    return mock.patch.object(served, "ask",
                             lambda asked: list(lines) if asked == line else ask(asked))


class Program(unittest.TestCase):
    """Tests of lldpa-ctl as a program, with a control socket."""

    def setUp(self) -> None:
        self.served = Served()
        self.addCleanup(self.served.close)

    def run_ctl(self, *words: str, status: int = 0, said: str = "", **options: Any) -> str:
        """Runs lldpa-ctl. Returns the output, and checks the status and the message."""
        told = ctl(self.served.path, *words, **options)
        self.assertEqual((told.stderr, told.returncode), (said and f"lldpa-ctl: {said}\n", status))
        return told.stdout
