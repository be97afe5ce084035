"""Tests tables that are full of large LLDPDUs: the log, the end, answers, and clients that do not
read them."""

import contextlib
import signal
import socket
import time

from kept import State
from loads import figure, full_load, goodbyes, stamped, worked
from patience import SECONDS, by_the_clock, eventually
from running_live import Live, OnLinks
from served import numbered, tlv

PORTS = 64
MEGABYTE = 1_000_000
LARGE = 1_300  # octets of an LLDPDU
SPAN = 12  # seconds
MOST, KEEP = 12, 900  # megabytes of one log file, and of all
GOODBYE = 1.5  # seconds
READERS = 60
MOST_OF_READERS = 64 * 1024  # KiB
MOST_LEFT = 0.5  # seconds of processor time for a client that does not read


def large(number: int, text: int = 0) -> bytes:
    """Returns a frame of this neighbor of about 1,300 octets, without letters that are escaped."""
    names = (tlv(5, b"n%d" % text), *(tlv(127, b"\0\1\2" + bytes([kind]) + bytes(250))
                                      for kind in range(5)))
    return numbered(number, 600, *names)


def hostile(number: int) -> bytes:
    """Returns a frame that `show neighbors` prints in over 6,000 octets."""
    texts = (tlv(kind, b"\x1b" * 255) for kind in (4, 5, 6))
    return numbered(number, 600, *texts, *(tlv(127, bytes([0, 0, kind, 1])) for kind in range(110)))


class Many(OnLinks):
    """Tests with 64 ports."""

    links = PORTS

    def setUp(self) -> None:
        super().setUp()
        self.folder.chmod(0o777)
        self.peers = [self.peer(f"peer{number}") for number in range(PORTS)]
        self.names = [f"eth{number}" for number in range(PORTS)]

    def are_held(self, live: Live, count: int) -> bool:
        return sum(".since." in line for line in live.ask("live")) == count


class Logs(Many):
    def whole(self, live: Live) -> None:
        """Checks that no line of the record was lost, and that nothing was said of it."""
        assert live.recorder is not None
        self.assertEqual((live.number("record-lines-lost"), live.recorder.said()), (0, ""))

    def sizes(self) -> "list[int]":
        """Returns the size of each file of the record, oldest first."""
        files = sorted(self.log.iterdir(), key=lambda path: path.stat().st_mtime_ns)
        return [path.stat().st_size for path in files]

    def send_large(self, text: int) -> int:
        """Sends 32 neighbors to each port, in pieces that leave the recorder room."""
        for number in range(32):
            for peer in self.peers:
                peer.send(large(number, text))
            time.sleep(1 / 32)
        return 32 * PORTS

    @by_the_clock
    def test_large_tables_lose_no_line_and_begin_no_file_early(self) -> None:
        self.keep_log_in_memory()
        live = self.recorded(*self.names, "--", "--receive-only", most=MOST, keep=KEEP)
        began, sent = time.monotonic(), 0
        while time.monotonic() < began + SPAN:
            sent += self.send_large(sent // 32 // PORTS)
            self.whole(live)
        self.assertTrue(eventually(lambda: self.are_held(live, PORTS * 32)))
        self.assertEqual(live.ended(), 0)
        sizes = self.sizes()
        logged = sum(path.read_text().count("\nrx ") for path in self.log.iterdir())
        figure(self, f"{sent} frames sent, {logged} lines in {len(sizes)} files of "
                     f"{[round(size / MEGABYTE, 1) for size in sizes]} MB")
        self.assertGreater(len(sizes), 1)
        self.assertGreaterEqual(min(sizes[:-1]), MOST * MEGABYTE)


class FullTables(Many):
    """Tests 8,192 neighbors, whose answer to `show neighbors` has 50 megabytes."""

    def full(self, *words: str) -> Live:
        live = self.live(*words, *self.names, "--", "--max-neighbors", "128")
        for number in range(128):
            for peer in self.peers:
                peer.send(hostile(number))
            time.sleep(0.02)
        self.assertTrue(eventually(lambda: self.are_held(live, PORTS * 128)), live.errors())
        return live

    @by_the_clock
    def test_the_end_is_said_at_once_beside_a_full_load(self) -> None:
        state = State()
        self.addCleanup(state.folder.cleanup)
        live = self.full(*state.words)
        for peer in self.peers:
            stamped(peer)
        with full_load():
            time.sleep(1)
            began = time.time()
            live.signal(signal.SIGTERM)
            status = live.ends()
        ended, byes = time.time() - began, goodbyes(self.peers, began)
        figure(self, f"{len(byes)} shutdown frames in {max(byes, default=99):.2f} s, the end after "
                     f"{ended:.2f} s, {len(state.read()) / MEGABYTE:.1f} MB of state")
        self.assertEqual((status, live.errors()), (0, ""))
        self.assertEqual(len(byes), PORTS)
        self.assertLess(max(byes), GOODBYE)
        self.assertEqual(state.count(), PORTS * 128)

    def test_one_port_can_be_asked_for(self) -> None:
        live = self.full()
        for words in (["neighbors", "eth7"], ["details", "eth7"], ["--json", "show", "neighbors",
                                                                   "eth7"]):
            text = live.ctl(*words)
            self.assertGreater(len(text), 1000, words)
            self.assertNotIn("eth8", text)
        self.assertEqual(live.ctl("--json", "show", "neighbors", "eth7").count('"since"'), 128)
        self.assertIn("\nlldpa_up 1\n", live.ctl("metrics"))

    def test_readers_that_never_read_cost_little(self) -> None:
        live = self.full()
        before = live.resident()
        clients = [self.silent(live) for _ in range(READERS)]
        most, last = 0, time.monotonic() + 12
        while time.monotonic() < last:
            most = max(most, live.resident() - before)
            live.ask("show chassis")
            time.sleep(0.05)
        most = max(most, live.resident("VmHWM") - before)
        figure(self, f"{len(clients)} readers cost at most {most / 1024:.1f} MB more than "
                     f"{before / 1024:.1f} MB")
        self.assertLess(most, MOST_OF_READERS)
        self.assertEqual(live.told("show neighbors eth0", "lldp.eth0.neighbors"), "128")

    def silent(self, live: Live) -> socket.socket:
        """Opens a client that asks for everything and reads nothing."""
        client = socket.socket(socket.AF_UNIX)
        self.addCleanup(client.close)
        client.connect(live.control)
        client.sendall(b"show neighbors\n")
        return client


class Unread(OnLinks):
    """Tests a client that asks and does not read."""

    def test_it_makes_nothing_spin(self) -> None:
        live = self.live("eth0", "--", "--receive-only", "--max-neighbors", "128")
        peer = self.peer()
        for number in range(128):
            peer.send(hostile(number))
        self.assertTrue(eventually(lambda: live.neighbors() == 128))
        with socket.socket(socket.AF_UNIX) as client:
            client.connect(live.control)
            client.sendall(b"show neighbors\n" * 50)  # more than the socket has room for
            time.sleep(8)  # the client has 10 seconds to read
            live.ask("show chassis")
            before = worked(live.process.pid)
            time.sleep(14)
            used = worked(live.process.pid) - before
            figure(self, f"{used:.3f} s of a processor in 14 s")
            self.assertLess(used, MOST_LEFT)
            self.assertTrue(eventually(lambda: is_over(client)))
        self.assertEqual(live.neighbors(), 128)

    def test_requests_that_came_together_are_all_answered(self) -> None:
        live = self.live("eth0", "--", "--receive-only")
        with socket.socket(socket.AF_UNIX) as client, client.makefile("rb") as answers:
            client.settimeout(SECONDS)
            client.connect(live.control)
            began = time.monotonic()
            client.sendall(b"show statistics eth0\n" * 200)
            for number in range(200):
                self.assertEqual(answers.readline(), b"=9\n", number)
                for _ in range(9):
                    answers.readline()
            self.assertLess(time.monotonic() - began, 10)


def is_over(client: socket.socket) -> bool:
    """Reads what a client has been sent. Returns True if lldpa-live has ended the connection."""
    client.setblocking(False)
    with contextlib.suppress(BlockingIOError):
        try:
            while client.recv(1 << 20):
                pass
        except ConnectionResetError:
            pass
        return True
    return False
