"""For tests on real links: runs lldpa-live, and ends everything after a test."""

import contextlib
import os
import shutil
import signal
import socket
import subprocess
import tempfile
import time
import unittest
from pathlib import Path
from typing import Any, Iterator, Optional, Sequence

from asking import Client
from lldpa import Refused
from patience import SECONDS, eventually
from served import CTL, LIVE, ctl, is_built, numbered
from wires import Peer, Wires, inside

SO_SNDBUFFORCE = 32  # asm-generic/socket.h
NO_ADDRESS = "there is no IPv4 address to announce\n"

# tests under nohup or in the background ignore these signals, and lldpa-live would, too
signal.signal(signal.SIGINT, signal.default_int_handler)
signal.signal(signal.SIGHUP, lambda *_: None)


def run_live(*words: str) -> subprocess.CompletedProcess[str]:
    """Runs an lldpa-live that ends by itself."""
    return subprocess.run([LIVE, *words], stdin=subprocess.DEVNULL, capture_output=True, text=True,
                          timeout=SECONDS, check=False)


class Recorder:
    """An `lldpa-ctl record`, which has begun its first file."""

    def __init__(self, control: str, folder: Path, *words: str, before: Sequence[str] = (),
                 awaits: bool = True) -> None:
        self.folder, self.errors_path = folder, Path(f"{control}-{time.monotonic_ns()}.recorder")
        had = set(folder.glob("*.trace"))
        with self.errors_path.open("wb") as errors:
            self.process = subprocess.Popen(
                [*before, CTL, "--control", control, *words, "record", str(folder)],
                stdin=subprocess.DEVNULL, stdout=subprocess.DEVNULL, stderr=errors)
        if awaits and not eventually(lambda: self.begun(had)):
            raise AssertionError(f"no record: {self.said()}")

    def begun(self, had: set[Path]) -> bool:
        """True if a file that was not there is no longer empty."""
        with contextlib.suppress(FileNotFoundError):
            return any(path.stat().st_size > 0 for path in set(self.folder.glob("*.trace")) - had)
        return False

    def said(self) -> str:
        return self.errors_path.read_text()

    def says(self, text: str) -> bool:
        """True if it writes this text to standard error in time."""
        return bool(eventually(lambda: text in self.said()))

    def has_all(self) -> bool:
        """Waits until it has written all that an lldpa-live that has ended has sent."""
        return self.process.poll() is not None or self.says("this program waits")

    def close(self) -> None:
        self.process.kill()
        self.process.wait()


class Live:
    def __init__(self, wires: Wires, *words: str, side: str = "here", before: Sequence[str] = (),
                 awaits: bool = True, **options: Any) -> None:
        self.control = str(wires.folder / f"control-{side}-{time.monotonic_ns()}")
        self.recorder: Optional[Recorder] = None
        self.errors_read = b""
        self.errors_socket, errors = socket.socketpair()
        for one in (self.errors_socket, errors):
            one.setsockopt(socket.SOL_SOCKET, SO_SNDBUFFORCE, 8 << 20)
        own = [] if "--control" in words else ["--control", self.control]
        with inside(getattr(wires, side)), errors:
            streams = {"stdin": subprocess.DEVNULL, "stdout": subprocess.PIPE, "stderr": errors}
            self.process = subprocess.Popen([*before, LIVE, *own, *words],
                                            **{**streams, **options})
        if awaits and not eventually(self.answers):
            raise AssertionError(f"no lldpa-live: {self.errors()}")

    def answers(self) -> bool:
        """True if lldpa-live answers that its agent runs, or if lldpa-live has ended."""
        return self.process.poll() is not None or self.ask_quietly()

    def has(self, line: str, what: str = "live") -> bool:
        """True if lldpa-live answers a question, and the answer has this line."""
        with contextlib.suppress(OSError):
            return line in self.ask(what)
        return False

    def ask_quietly(self) -> bool:
        """True if lldpa-live answers that its agent runs."""
        return self.has("live.agent=running")

    def ask(self, line: str) -> list[str]:
        with contextlib.closing(Client(self.control)) as client:
            return client.ask(line)

    def ask_refused(self, line: str) -> str:
        """Returns why lldpa-live refuses a line, or an empty text if it accepts the line."""
        try:
            self.ask(line)
        except Refused as refused:
            return refused.text
        return ""

    def ctl(self, *words: str) -> str:
        return ctl(self.control, *words).stdout

    def reload(self, *paths: Path) -> subprocess.CompletedProcess[str]:
        """Lets a client read these settings and hand them over."""
        return ctl(self.control, "reload", *map(str, paths))

    def told(self, what: str, key: str) -> str:
        """Returns the value of a key in the answer to a question."""
        return dict(line.split("=", 1) for line in self.ask(what))[key]

    def neighbors(self, port: str = "eth0") -> int:
        return int(self.told("show neighbors", f"lldp.{port}.neighbors"))

    def number(self, key: str) -> int:
        return int(self.told("live", f"live.{key}"))

    def spend(self, seconds: int) -> None:
        """Waits until lldpa-live has counted this many more seconds."""
        last = self.number("seconds") + seconds
        if not eventually(lambda: self.number("seconds") >= last):
            raise AssertionError(f"no {seconds} seconds pass: {self.errors()}")

    def comes_to(self, line: str, what: str = "live") -> None:
        """Waits until the answer to a question has this line."""
        if not eventually(lambda: self.has(line, what)):
            raise AssertionError(f"{what} has no {line}: {self.ask(what)}")

    def used(self) -> float:
        """Returns how many seconds of processor time lldpa-live's main thread has used."""
        return int(Path(f"/proc/{self.process.pid}/schedstat").read_text().split()[0]) / 1e9

    def errors(self) -> str:
        """Returns lldpa-live's standard error, without lines about a missing address."""
        return "".join(line for line in self.said().splitlines(True) if NO_ADDRESS not in line)

    def said(self) -> str:
        with contextlib.suppress(BlockingIOError, ConnectionResetError):
            while self.errors_socket.fileno() >= 0:
                octets = self.errors_socket.recv(1 << 20, socket.MSG_DONTWAIT)
                self.errors_read += octets
                if not octets:
                    break
        return self.errors_read.decode()

    def says(self, text: str, seconds: float = SECONDS) -> bool:
        """True if lldpa-live writes this text to standard error in time."""
        return bool(eventually(lambda: text in self.errors(), seconds))

    def resident(self, kind: str = "VmRSS") -> int:
        """Returns the size of lldpa-live's resident memory in KiB, or its peak with VmHWM."""
        status = Path(f"/proc/{self.process.pid}/status").read_text()
        return int(status.split(f"{kind}:")[1].split()[0])

    def ended(self, number: int = signal.SIGTERM) -> Optional[int]:
        """Sends a signal. Returns the status, or None if lldpa-live does not end in time."""
        self.signal(number)
        return self.ends()

    def signal(self, number: int) -> None:
        self.process.send_signal(number)

    @contextlib.contextmanager
    def stopped(self) -> Iterator[None]:
        self.signal(signal.SIGSTOP)
        yield
        self.signal(signal.SIGCONT)

    def ends(self, seconds: float = SECONDS) -> Optional[int]:
        """Returns the status, or None if it does not end in time. Then its record is whole."""
        with contextlib.suppress(subprocess.TimeoutExpired):
            status = self.process.wait(seconds)
            if self.recorder and not self.recorder.has_all():
                raise AssertionError(f"the record is not whole: {self.recorder.said()}")
            return status
        return None

    def close(self) -> None:
        """Ends lldpa-live, even if it is stopped or hangs. Fails if it has panicked."""
        if self.process.poll() is None:
            self.signal(signal.SIGCONT)
            if self.ended() is None:
                self.ended(signal.SIGKILL)
        if self.process.stdout is not None:
            self.process.stdout.close()
        if self.recorder:
            self.recorder.close()
        errors = self.errors()
        self.errors_socket.close()
        if "panicked" in errors:
            raise AssertionError(errors)


@unittest.skipUnless(os.geteuid() == 0, "root: only root makes links")
@unittest.skipUnless(shutil.which("ip"), "ip: it is not installed")
@is_built
class OnLinks(unittest.TestCase):
    """A test with links. After the test, the links are removed and the programs are ended."""

    links = 1

    def setUp(self) -> None:
        self.wires = Wires(self.links)
        self.addCleanup(self.wires.close)
        self.folder = self.wires.folder
        self.log = self.folder / "log"

    def keep_log_in_memory(self) -> None:
        """Moves the log to a folder in memory, so that a slow disk can't make the record lose
        lines."""
        folder = tempfile.TemporaryDirectory(dir="/dev/shm")
        self.addCleanup(folder.cleanup)
        os.chmod(folder.name, 0o755)
        self.log = Path(folder.name, "log")

    def live(self, *words: str, **options: Any) -> Live:
        """Starts an lldpa-live that ends after the test."""
        live = Live(self.wires, *words, **options)
        self.addCleanup(live.close)
        return live

    def recorded(self, *words: str, most: int = 64, keep: int = 1024, **options: Any) -> Live:
        """Starts an lldpa-live whose agent is recorded in files of so many megabytes."""
        live = self.live(*words, **options)
        self.record(live, most, keep)
        return live

    def record(self, live: Live, most: int = 64, keep: int = 1024, **options: Any) -> Recorder:
        sizes = ("--most", str(most), "--keep", str(keep))
        live.recorder = Recorder(live.control, self.log, *sizes, **options)
        self.addCleanup(live.recorder.close)
        return live.recorder

    def peer(self, end: str = "peer0") -> Peer:
        """Opens a sender that is closed after the test."""
        peer = Peer(self.wires, end)
        self.addCleanup(peer.close)
        return peer

    def receiving(self, *words: str) -> tuple[Live, Peer]:
        """Starts an lldpa-live that only receives at eth0, and opens a sender at the other end."""
        return self.live(*words, "eth0", "--", "--receive-only"), self.peer()

    def becomes_neighbor(self, live: Live, octets: bytes = numbered(1),
                         peer: Optional[Peer] = None) -> None:
        """Sends a frame, and waits until eth0 has a neighbor."""
        (peer or self.peer()).send(octets)
        self.assertTrue(eventually(live.neighbors))

    def refuses(self, text: str, *words: str, status: int = 1, **options: Any) -> None:
        """Checks that lldpa-live, with these words, ends with this status and reports this text."""
        live = self.live(*words, **options)
        self.assertEqual(live.ends(), status, words)
        self.assertIn(text, live.errors())
