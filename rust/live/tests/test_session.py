"""Traces whole sessions: after its start lldpa-live makes no call with a path, and has one thread.

So no disk, no folder and no file that another program changes can stop it: what its start has
opened is all that it uses."""

import os
import re
import signal
import socket
import subprocess
import time
from contextlib import closing, suppress
from typing import Iterator

from asking import Client
from calls import needs_strace
from heard import Heard
from lldpa import Refused
from loads import Sender
from patience import eventually
from running_live import Live, OnLinks
from served import CTL, REPOSITORY, numbered, tlv
from wires import ip

FILTER = REPOSITORY / "rust" / "live" / "src" / "sys" / "seccomp.rs"
# the end of a process, also by a panic, and what goes on once it was stopped; `restart_syscall` is
# the kernel's own way to do so, and memory is asked for in one way or another
OF_THE_END = set("exit_group tgkill getpid gettid rt_sigprocmask rt_sigaction rt_sigreturn "
                 "restart_syscall".split())
OF_MEMORY = set("brk mmap mremap munmap madvise getrandom".split())
# other C libraries and processors wait and ask for the time by these
OTHERWISE = set("epoll_pwait epoll_wait clock_gettime gettimeofday recvfrom read".split())
STRANGERS = [numbered(number % 200, 60, tlv(5, b"%d" % number)) for number in range(2000)]


def allowed() -> "set[str]":
    """Returns the names of the calls that the filter allows, some of them with some arguments."""
    text = FILTER.read_text().partition("const NUMBER: u32")[0]
    return set(re.findall(r"libc::SYS_(\w+)", text)) | {"tgkill"}


class Session(OnLinks):
    links = 2

    def setUp(self) -> None:
        super().setUp()
        self.heard = Heard(self.folder)
        self.addCleanup(self.heard.close)
        self.calls, self.settings = self.folder / "calls", self.folder / "a.conf"
        self.settings.write_text("configure lldp tx-interval 1\n")

    def traced(self, *words: str, seconds: float = 4) -> Live:
        """Starts an lldpa-live like the service's, of which strace writes each call."""
        return self.live("--events", "--forget-on-down", "--keep-state", *words,
                         before=self.strace(), env=self.heard.environment(seconds))

    def strace(self) -> "list[str]":
        return ["strace", "-D", "-f", "-qq", "-s", "200", "-o", str(self.calls)]

    def lines(self) -> Iterator[str]:
        """Yields each call of lldpa-live after the filter was set. What the start has begun as
        processes of their own is left out."""
        lines, process = iter(self.calls.read_text().splitlines()), ""
        for line in lines:
            if "seccomp(SECCOMP_SET_MODE_FILTER" in line:
                process = line.partition(" ")[0]
                break
        for line in lines:
            caller, _, call = line.partition(" ")
            if caller == process and not call.lstrip().startswith(("---", "+++", "<...")):
                yield call.lstrip()

    def names(self) -> "set[str]":
        """Returns the names of the calls. Fails at each that is refused or could have a path."""
        lines = list(self.lines())
        self.assertGreater(len(lines), 100)
        names = {call.partition("(")[0] for call in lines}
        self.assertEqual([call for call in lines if call.partition("(")[0] not in allowed()], [])
        self.assertEqual([call for call in lines if "EPERM" in call or "sun_path" in call
                          and not call.startswith("accept4(")], [])
        return names

    @needs_strace
    def test_a_whole_session(self) -> None:
        live = self.traced("--config", str(self.settings), "eth0", "eth1", "eth7", "vnet*", "--",
                           "--max-neighbors", "20")
        self.assertTrue(self.heard.hears("FDSTORE=1"))
        self.record(live)
        watch = subprocess.Popen([CTL, "--control", live.control, "watch"],
                                 stdout=subprocess.DEVNULL)
        self.addCleanup(watch.wait)
        self.addCleanup(watch.kill)
        self.strangers(live)
        self.questions(live)
        self.interfaces(live)
        self.slow_clients(live)
        with live.stopped():
            time.sleep(1)
        self.assertEqual(live.reload(self.settings).returncode, 0)
        live.signal(signal.SIGHUP)
        self.assertTrue(live.says("reads the settings again"))
        self.heard.forget()
        self.assertTrue(self.heard.hears("WATCHDOG=1"))
        live.spend(1)
        self.assertEqual(len(os.listdir(f"/proc/{live.process.pid}/task")), 1, "it has one thread")
        self.assertEqual(live.ended(), 0)
        found = self.names()
        self.assertEqual(allowed() - found - OF_THE_END - OF_MEMORY - OTHERWISE, set(),
                         "the filter allows no more than is called")
        self.assertEqual(found & OF_THE_END - {"exit_group", "restart_syscall"} -
                         {"rt_sigprocmask", "rt_sigaction", "getpid"}, set())

    def strangers(self, live: Live) -> None:
        peer = self.peer("peer1")
        for number in range(3):
            peer.send(numbered(number, 1 + number))
        peer.send(numbered(7)[:20])
        peer.send(numbered(8, 600))
        Sender(self, self.wires, ["peer0"], STRANGERS, 5000)
        self.assertTrue(eventually(lambda: "lldp.eth0.too-many=yes" in live.ask("show neighbors")))
        self.assertTrue(eventually(lambda: "lldp.eth1.ageouts=3" in live.ask("show statistics")))

    def questions(self, live: Live) -> None:
        for line in ("live", "changes", "show neighbors", "show chassis", "show configuration",
                     "show statistics eth1", "live eth0", "update", "configure lldp tx-hold 5"):
            live.ask(line)
        for line in ("nonsense", "show neighbors eth99", "configure lldp tx-hold 0"):
            with suppress(Refused):
                live.ask(line)
        for words in (("metrics",), ("neighbors",), ("details",), ("--json", "neighbors")):
            self.assertTrue(live.ctl(*words), words)

    def interfaces(self, live: Live) -> None:
        self.wires.add_guest("vnet1", "far1")
        live.comes_to("live.vnet1.link=up")
        self.wires.add_link(7)
        live.comes_to("live.eth7.link=up")
        ip("-n", self.wires.here, "address", "add", "192.0.2.7/24", "dev", "eth1")
        live.comes_to("local-chassis.mgmt=192.0.2.7,1,0,", "show chassis")
        self.wires.set_link("eth1", "down")
        live.comes_to("live.eth1.link=down")
        self.wires.set_link("eth1", "up")
        live.comes_to("live.eth1.link=up")
        self.wires.remove_link("vnet1")
        self.assertTrue(eventually(lambda: "vnet1" not in "\n".join(live.ask("live"))))

    def slow_clients(self, live: Live) -> None:
        for line in (b"show neighbors\n" * 50, b"watch\n", b"watch nothing\n", b"record\n", b"live",
                     b"x" * 5000 + b"\n"):
            client = socket.socket(socket.AF_UNIX)
            self.addCleanup(client.close)
            client.connect(live.control)
            client.sendall(line)
        with closing(Client(live.control)) as client:
            client.ask("live")

    @needs_strace
    def test_a_heard_frame_costs_four_calls_at_most(self) -> None:
        live, peers = self.traced("eth0", "eth1", "--", "--receive-only", seconds=600), [self.peer(), self.peer("peer1")]
        for number, peer in enumerate(peers):
            peer.send(numbered(1, 600))
            self.assertTrue(eventually(lambda: live.neighbors(f"eth{number}") == 1))
        # how many frames are sent, and how many seconds lie between them: alone, and more than a port may receive
        for count, pause in ((100, 0.02), (3000, 0.0005), (1000, 0.001), (500, 0.003)):
            self.assertTrue(eventually(lambda: not self.spent(0.3)))
            before = len(list(self.lines()))
            for number in range(count):
                peers[number % 2].send(numbered(1, 600))
                time.sleep(pause)
            self.assertTrue(eventually(lambda: not self.spent(0.3)))
            calls = len(list(self.lines())) - before
            self.assertLessEqual(calls, 4.0 * count, (count, pause))

    def spent(self, seconds: float) -> int:
        """Returns how many octets of calls are added in this time."""
        before = self.calls.stat().st_size
        time.sleep(seconds)
        return self.calls.stat().st_size - before

    @needs_strace
    def test_without_an_interface_and_with_a_file_for_its_reports(self) -> None:
        with (self.folder / "errors").open("wb") as errors:
            live = self.live("--events", "eth7", "eth0", stderr=errors, before=self.strace())
        self.wires.add_link(7)
        live.comes_to("live.eth7.link=up")
        self.becomes_neighbor(live)
        self.assertEqual(live.ended(), 0)
        path = self.folder / "errors"
        self.assertTrue(eventually(lambda: b"eth0 came: " in path.read_bytes()))
        self.names()
