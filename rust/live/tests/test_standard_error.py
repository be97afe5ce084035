"""Tests a standard error that takes nothing: a stopped terminal, a terminal and a pipe that nobody
reads, and a file on a slow disk. lldpa-live answers, sends and ends as usual."""

import os
import pty
import select
import signal
import time
from pathlib import Path
from typing import Any, Iterator

from calls import needs_strace
from kept import State
from patience import by_the_clock, eventually
from running_live import Live, OnLinks
from served import numbered, tlv
from slowed import slow_calls
from test_rights import status_of
from wires import Peer

STOP, START = b"\x13", b"\x11"  # Ctrl-S and Ctrl-Q
ANSWER = 1.0  # seconds
END = 2.0
ROOM = 300  # octets of a terminal that nobody reads
CHANGES = 60  # each is a line in the history, and a port has 100 a minute


def changed(number: int) -> bytes:
    """Returns a frame whose change is a line of over 500 characters."""
    return numbered(1, 600, tlv(6, (b"%d " % number * 255)[:255]))


def children(pid: int) -> "list[int]":
    """Returns the processes that a process has started."""
    return [int(one) for one in Path(f"/proc/{pid}/task/{pid}/children").read_text().split()]


def has_left(pid: int) -> bool:
    """True if a process has ended, also if nobody has asked for its status."""
    try:
        return Path(f"/proc/{pid}/stat").read_text().rpartition(")")[2].split()[0] == "Z"
    except FileNotFoundError:
        return True


class Errors(OnLinks):
    def open_terminal(self) -> "tuple[int, int]":
        """Opens a terminal, and returns its two ends, which are closed after the test."""
        ends = pty.openpty()
        for end in ends:
            self.addCleanup(os.close, end)
        return ends

    def begun(self, errors: Any) -> "tuple[Live, Peer]":
        live = self.live("--events", "--no-domain", "eth0", stderr=errors)
        peer = self.peer()
        self.becomes_neighbor(live, numbered(1, 600), peer)
        self.assertIsNotNone(peer.hears())  # before its first frame it has nothing to take back
        return live, peer

    def goes_on(self, live: Live, peer: Peer) -> None:
        """Gives lldpa-live much to say, and checks that it answers, sends and ends."""
        before = int(live.told("show statistics", "lldp.eth0.received"))
        for number in range(CHANGES):
            peer.send(changed(number))
        began = time.monotonic()
        wanted = f"lldp.eth0.received={before + CHANGES}"
        self.assertTrue(eventually(lambda: live.has(wanted, "show statistics"), ANSWER))
        live.ask("update")
        self.assertLess(time.monotonic() - began, ANSWER)
        while peer.hears(0.1):
            pass
        live.signal(signal.SIGTERM)
        self.assertIsNotNone(peer.hears(END, ttl=0))
        self.assertTrue(eventually(lambda: has_left(live.process.pid), END))

    @by_the_clock
    def test_a_terminal_that_was_stopped(self) -> None:
        ours, theirs = self.open_terminal()
        live, peer = self.begun(theirs)
        self.stop(ours, theirs)
        self.goes_on(live, peer)

    @by_the_clock
    def test_a_terminal_that_nobody_reads(self) -> None:
        ours, theirs = self.open_terminal()
        live, peer = self.begun(theirs)
        os.set_blocking(theirs, False)
        while select.select([], [theirs], [], 0)[1]:
            os.write(theirs, b"x")
        os.set_blocking(theirs, True)
        os.read(ours, ROOM)  # a line fits only in part
        self.assertTrue(eventually(lambda: select.select([], [theirs], [], 0)[1]))
        self.goes_on(live, peer)

    @by_the_clock
    def test_a_pipe_that_nobody_reads(self) -> None:
        ours, theirs = os.pipe()
        self.addCleanup(os.close, ours)
        self.addCleanup(os.close, theirs)
        live, peer = self.begun(theirs)
        self.goes_on(live, peer)

    @needs_strace
    def test_a_file_that_does_not_answer(self) -> None:
        """Each write to it takes three seconds, and so does each question what it is."""
        path = self.folder / "errors"
        with path.open("wb") as errors:
            live, peer = self.begun(errors)
            copier, = children(live.process.pid)
            with slow_calls(copier, 3, "write,fstat,newfstatat,statx"):
                self.goes_on(live, peer)

    def test_a_file_has_each_line_and_its_copier_ends(self) -> None:
        path = self.folder / "errors"
        with path.open("wb") as errors:
            live, _ = self.begun(errors)
        copier, = children(live.process.pid)
        self.assertNotIn("0", status_of(copier)["Uid"].split())
        self.assertEqual(live.ended(), 0)
        self.assertTrue(eventually(lambda: not Path(f"/proc/{copier}").exists()))
        self.assertIn("lldpa-live: eth0 came: ", path.read_text())

    def test_a_file_may_not_grow(self) -> None:
        """No signal about a limit of file sizes ends lldpa-live, whatever it writes."""
        path, state = self.folder / "errors", State()
        self.addCleanup(state.folder.cleanup)
        with path.open("wb") as errors:
            live = self.live("--events", *state.words, "eth0", stderr=errors, before=[
                "prlimit", "--fsize=0:0"])
        self.becomes_neighbor(live)
        live.spend(1)
        self.assertEqual((live.ended(), path.read_bytes(), state.read()), (0, b"", b""))

    @by_the_clock
    def test_what_waits_is_told_when_the_terminal_goes_on(self) -> None:
        ours, theirs = self.open_terminal()
        live, peer = self.begun(theirs)
        told = b"".join(self.read(ours))
        self.assertIn(b"eth0 came: ", told)
        self.stop(ours, theirs)
        peer.send(changed(7))
        live.spend(1)
        self.assertEqual(b"".join(self.read(ours)), b"")
        os.write(ours, START)
        self.assertTrue(eventually(lambda: b"eth0 changed: " in b"".join(self.read(ours))))

    def stop(self, ours: int, theirs: int) -> None:
        """Stops a terminal as Ctrl-S does, and waits until it takes nothing."""
        os.write(ours, STOP)
        self.assertTrue(eventually(lambda: not select.select([], [theirs], [], 0)[1]))

    def read(self, terminal: int) -> Iterator[bytes]:
        """Yields what a terminal shows."""
        while select.select([terminal], [], [], 0.3)[0]:
            yield os.read(terminal, 65536)
