"""Tests restarts under a manager that keeps the state: neighbors stay, and peers notice nothing."""

import array
import fcntl
import os
import signal
import socket
import subprocess
import sys
import time
from pathlib import Path
from typing import Any

from asking import since_of
from heard import Heard
from kept import forged
from patience import eventually
from replaced import LONG, Replaced
from running_live import Live
from served import numbered
from test_standard_error import children

HIGH = 50  # descriptors that no program uses by itself
# takes the place of a manager: hands over the two files by the numbers that sd_listen_fds(3) names
HAND_OVER = """
import os, sys
for place, number in enumerate(sys.argv[1:3]):
    os.dup2(int(number), 3 + place)
    os.close(int(number))
os.environ.update(LISTEN_PID=str(os.getpid()), LISTEN_FDS="2", LISTEN_FDNAMES="state:state")
os.execvp(sys.argv[3], sys.argv[3:])
"""


class Manager(Heard):
    """A manager that keeps what a service asks it to keep."""

    def __init__(self, folder: Path) -> None:
        super().__init__(folder)
        self.kept: "list[int]" = []

    def next(self, seconds: float = 0) -> "list[str]":
        self.socket.settimeout(seconds or 0.001)
        try:
            octets, notes, _, _ = self.socket.recvmsg(65536, 100)
        except (TimeoutError, BlockingIOError, socket.timeout):
            return []
        for _, _, note in notes:
            numbers = array.array("i", note)
            self.kept += [fcntl.fcntl(one, fcntl.F_DUPFD, HIGH) for one in numbers]
            for one in numbers:
                os.close(one)
        self.datagrams.append(octets.decode().split("\n"))
        return self.datagrams[-1]

    def words(self) -> "list[str]":
        return [sys.executable, "-c", HAND_OVER, *map(str, self.kept)] if self.kept else []


class Kept(Replaced):
    def setUp(self) -> None:
        super().setUp()
        self.manager = Manager(self.folder)
        self.addCleanup(self.manager.close)

    def service(self, *words: str, **options: Any) -> Live:
        live = self.live("--keep-state", "--events", *words, "eth0", "eth1",
                         before=self.manager.words(), env=self.manager.environment(),
                         pass_fds=self.manager.kept, **options)
        self.assertTrue(self.manager.hears("READY=1"))
        return live

    def with_neighbors(self) -> Live:
        live = self.service()
        self.assertEqual(len(self.manager.kept), 2)
        for number in (3, 1):
            self.peers[0].send(numbered(number, LONG))
            live.spend(1)
        self.peers[1].send(numbered(9, LONG))
        self.assertTrue(eventually(lambda: live.neighbors("eth1") == 1 and live.neighbors() == 2))
        return live

    def hears_a_goodbye(self, seconds: float = 1) -> bool:
        return self.peers[0].hears(seconds, ttl=0) is not None

    def test_a_restart_keeps_the_neighbors_and_says_no_goodbye(self) -> None:
        live = self.with_neighbors()
        for _ in range(3):
            before, began = self.neighbors(live), time.monotonic()
            since = since_of(live.ask("live"))
            self.peers[0].hears(0.1)
            self.assertEqual(live.ended(signal.SIGUSR2), 0)
            self.assertFalse(self.hears_a_goodbye())
            live = self.service()
            self.stays(before, began, live)
            self.assertEqual(since_of(live.ask("live")), since)
            self.assertNotIn("the state", live.errors())
            self.assertIsNotNone(self.peers[0].hears(), "it speaks again")
        self.assertEqual(len(self.manager.kept), 2, "the same files are kept")

    def test_a_stop_says_goodbye(self) -> None:
        live = self.with_neighbors()
        self.assertIsNotNone(self.peers[0].hears())
        self.assertEqual(live.ended(signal.SIGTERM), 0)
        self.assertTrue(self.hears_a_goodbye())

    def test_a_stop_right_after_a_restart_says_goodbye(self) -> None:
        """Before its first second it has sent no frame, but its peers know it from the one before."""
        live = self.with_neighbors()
        self.assertEqual(live.ended(signal.SIGUSR2), 0)
        self.assertEqual(self.service().ended(signal.SIGTERM), 0)
        self.assertTrue(self.hears_a_goodbye())

    def test_without_a_state_a_restart_says_goodbye(self) -> None:
        live = self.live("eth0")
        self.assertIsNotNone(self.peers[0].hears())
        self.assertEqual(live.ended(signal.SIGUSR2), 0)
        self.assertTrue(self.hears_a_goodbye())

    def test_if_the_state_cannot_be_written_a_restart_says_goodbye(self) -> None:
        self.manager.kept = []
        live = self.live("--keep-state", "eth0", env=self.manager.environment(),
                         before=["prlimit", "--fsize=0:0"])
        self.assertIsNotNone(self.peers[0].hears())
        self.assertEqual(live.ended(signal.SIGUSR2), 0)
        self.assertTrue(self.hears_a_goodbye())
        self.assertIn("the state was not written: File too large", live.errors())

    def test_a_crash_loses_at_most_a_minute(self) -> None:
        live = self.with_neighbors()
        before, began = self.neighbors(live), time.monotonic()
        self.assertTrue(eventually(lambda: any(self.has_all(one) for one in self.manager.kept),
                                   75))
        self.assertEqual(live.ended(signal.SIGKILL), -signal.SIGKILL)
        for _ in range(2):  # also after a kill in the first minute
            live = self.service()
            self.stays(before, began, live)
            self.assertEqual(live.ended(signal.SIGKILL), -signal.SIGKILL)

    def has_all(self, number: int) -> bool:
        """True if a file has a whole state with the three neighbors."""
        octets = os.pread(number, 1 << 20, 0)
        return octets.endswith(b"# end\n") and octets.count(b"rx eth") == 6

    def test_what_it_keeps_is_hidden_from_the_processes_that_it_starts(self) -> None:
        self.assertEqual(self.with_neighbors().ended(signal.SIGUSR2), 0)
        with (self.folder / "errors").open("wb") as errors:
            live = self.service(stderr=errors)
        self.assertEqual(live.neighbors(), 2)
        started = children(live.process.pid)
        self.assertEqual(len(started), 2, "one copies, one asks for the host's domain")
        for process in started:
            files = [os.readlink(one) for one in Path(f"/proc/{process}/fd").iterdir()]
            self.assertFalse(any("lldpa-state" in one for one in files), files)

    def test_an_upgrade_hands_over_the_state_of_a_version_that_wrote_a_file(self) -> None:
        postinst = (Path(__file__).parents[3] / "debian" / "lldpa.postinst").read_text()
        script = postinst.partition("perl -ne '")[2].partition("' > ")[0]
        (clock, *_), frames = forged(3)[:1], forged(3)[1]
        first = clock.replace(b"state 2", b"state 1").rstrip(b"\n") + b" 0011\n"
        former = first + b"".join(
            b"# since eth0 1234567890.000 local=n%d ifname=p\n" % number for number in range(3))
        for one in frames.split(b"rx eth0 ")[1:]:
            former += b"rx eth0 %s\n" % one.partition(b"\n")[2].hex().encode()
        handed = subprocess.run(["perl", "-ne", script], input=former + b"# end\n",
                                capture_output=True, check=True).stdout
        path = Path("/dev/shm", f"lldpa-former-{os.getpid()}")
        path.write_bytes(handed)
        self.addCleanup(path.unlink)
        with path.open("rb") as state:
            live = self.service(stdin=state)
        self.assertEqual((live.errors(), live.neighbors()), ("", 3))
        self.assertEqual(set(since_of(live.ask("live")).values()), {"2009-02-13T23:31:30Z"})
