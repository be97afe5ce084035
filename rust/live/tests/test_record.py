"""Tests the log of a session, which is a trace with the time of day, and `--once`."""

import fcntl
import os
import pty
import re
import struct
import termios
import time
from datetime import datetime, timezone
from pathlib import Path

from lldpa import read_show
from running_live import Live, OnLinks
from patience import by_the_clock, eventually
from replays import sent
from served import numbered
from wires import Peer
CLOCK = re.compile(r"# \d{4}-\d\d-\d\dT\d\d:\d\d:\d\dZ")


class TestLog(OnLinks):
    def logs(self) -> list[Path]:
        """Returns the log files, oldest first."""
        return sorted(self.log.iterdir(), key=lambda path: path.stat().st_mtime_ns)

    @by_the_clock
    def test_replay_sends_what_was_sent_to_the_octet(self) -> None:
        peer = self.peer()
        live = self.recorded("eth0", "--", "--role", "router")
        self.live_a_little(live, peer)
        self.assertEqual(live.ended(), 0)
        replayed = sent(self.log, "eth0", self.wires.address("eth0"))
        heard = list(iter(lambda: peer.hears(0.5), None))
        # the replay also sends what was due while the link was down or lldpa-live was stopped
        left = iter(replayed)
        self.assertTrue(all(octets in left for octets in heard))
        self.assertEqual(replayed[-1], heard[-1])
        self.assertGreaterEqual(len(heard), 2)
        log = self.logs()[0].read_bytes()
        self.assertNotIn(b"show", log)
        self.assertNotIn(b"nonsense", log)

    def live_a_little(self, live: Live, peer: Peer) -> None:
        """Sends frames and commands, changes the link, and stops lldpa-live for a while."""
        for frame in (numbered(1), numbered(2), numbered(3, ttl=1)):
            peer.send(frame)
        self.assertTrue(eventually(lambda: "lldp.eth0.ageouts=1" in live.ask("show statistics")))
        self.assertEqual(live.neighbors(), 2)
        for line in ("show statistics", "configure lldp tx-hold 7", "# a remark", "update"):
            live.ask(line)
        self.assertEqual(live.ask_refused("nonsense"), "unknown command")
        self.wires.set_link("eth0", "down")
        live.comes_to("live.eth0.link=down")
        self.wires.set_link("eth0", "up")
        with live.stopped():
            time.sleep(2.1)
        live.spend(1)

    def test_each_session_has_a_file_of_its_own(self) -> None:
        control = str(self.folder / "control")
        live = self.live("--control", control, "eth0", awaits=False)
        live.control = control
        self.assertTrue(eventually(live.answers))
        recorder = self.record(live)
        for count in (1, 2):
            self.assertEqual(live.ended(), 0)
            live = self.live("--control", control, "eth0", awaits=False)
            live.control, live.recorder = control, None
            # pylint: disable-next=cell-var-from-loop
            self.assertTrue(eventually(lambda: len(self.logs()) == count + 1), recorder.said())
        self.assertEqual(recorder.said().count("this program waits"), 2)
        for path in self.logs():
            self.assertRegex(path.name, r"^\d{8}T\d{6}Z(-\d)?\.trace$")
            self.assertTrue(path.read_text().startswith("# lldpa --"))
            self.assertEqual(path.stat().st_mode & 0o007, 0)

    @by_the_clock
    def test_clock_stands_before_what_came_in_its_second(self) -> None:
        began = time.time()
        live, peer = self.recorded("eth0"), self.peer()
        for number in range(4):
            peer.send(numbered(number))
            time.sleep(0.4)
        self.assertTrue(eventually(lambda: live.neighbors() == 4))
        lines = self.logs()[0].read_text().splitlines()
        clocks = [line for line in lines if CLOCK.fullmatch(line)]
        self.assertEqual(len(set(clocks)), len(clocks))
        self.assertGreaterEqual(len(clocks), 2)
        first = datetime.strptime(clocks[0], "# %Y-%m-%dT%H:%M:%SZ").replace(tzinfo=timezone.utc)
        self.assertTrue(began - 1.1 < first.timestamp() < time.time() + 0.1)
        first_frame = next(place for place, line in enumerate(lines) if line.startswith("rx "))
        self.assertTrue(any(CLOCK.fullmatch(line) for line in lines[:first_frame]))

    def test_options_of_earlier_versions_start_the_agent_and_say_what_records_now(self) -> None:
        former = ("--log", str(self.log), "--log-most", "3", "--log-keep", "9", "--no-log",
                  "--metrics", str(self.folder / "lldpa.prom"))
        live = self.live(*former, "eth0")
        for name in former[::2][:3] + ("--no-log", "--metrics"):
            self.assertIn(f"{name} does nothing any more: see `record` in lldpa-ctl(8)",
                          live.errors())
        self.assertEqual((live.ended(), self.log.exists()), (0, False))


class TestOnce(OnLinks):
    """Tests `--once`: lldpa-live ends when each port has a neighbor, or when the time is over."""

    links = 2

    @by_the_clock
    def test_neighbors_of_all_that_were_awaited(self) -> None:
        peers = [self.peer("peer0"), self.peer("peer1")]
        live = self.live("--once", "60", "eth0", "eth1", awaits=False)
        for peer, number in zip(peers, (1, 2)):
            self.assertIsNotNone(peer.hears())
            peer.send(numbered(number))
        self.assertEqual(live.ends(), 0)
        show = read_show(self.printed(live).splitlines())
        self.assertEqual([(one.port, one.port_id.text) for one in show.neighbors],
                         [("eth0", "p1"), ("eth1", "p2")])
        self.assertIsNotNone(peers[0].hears(1, ttl=0))
        self.assertFalse(os.path.exists(live.control))

    def printed(self, live: Live) -> str:
        assert live.process.stdout is not None
        return live.process.stdout.read().decode()

    def test_a_table_on_a_terminal(self) -> None:
        """A terminal gets the table that README shows, unless the lines are asked for."""
        table = r"^PORT +NEIGHBOR +ITS PORT .* LEFT\r\neth0 +02:00:00:00:00:01 +p1 .* \d+ s\r\n1 neighbor on 1 port\.\r\n$"
        lines = r"^lldp\.eth0\.neighbors=1\r\nlldp\.eth0\.octets="
        for words, wanted in (([], table), (["--lines"], lines)):
            ours, theirs = pty.openpty()
            fcntl.ioctl(theirs, termios.TIOCSWINSZ, struct.pack("HHHH", 24, 80, 0, 0))
            peer = self.peer("peer0")
            live = self.live("--once", "60", *words, "eth0", awaits=False, stdout=theirs)
            os.close(theirs)
            self.assertIsNotNone(peer.hears())
            peer.send(numbered(1))
            self.assertEqual(live.ends(), 0)
            self.assertRegex(os.read(ours, 4096).decode(), wanted)
            os.close(ours)

    @by_the_clock
    def test_status_tells_that_one_was_missing(self) -> None:
        peer = self.peer("peer1")
        live = self.live("--once", "1", "eth0", "eth1", awaits=False)

        def ends_while_frames_come() -> bool:
            peer.send(numbered(1))
            return live.process.poll() is not None

        self.assertTrue(eventually(ends_while_frames_come))
        self.assertEqual(live.ends(), 1)
        self.assertEqual(len(read_show(self.printed(live).splitlines()).neighbors), 1)
