"""Tests lldpa-live as a service: its reports to systemd, its metrics and the lines of --events."""

import os
import re
import signal
import socket
import time
from typing import Any

from running_live import Live, OnLinks
from heard import Heard
from kept import State
from patience import SECONDS, by_the_clock, eventually
from served import numbered, tlv
from wires import inside


class Service(OnLinks):
    def setUp(self) -> None:
        super().setUp()
        self.heard = Heard(self.folder)
        self.addCleanup(self.heard.close)

    def service(self, *words: str, seconds: float = 4, **options: Any) -> Live:
        """Starts an lldpa-live that reports to the test, with a watchdog of this many seconds."""
        return self.live(*words, env=self.heard.environment(seconds), **options)


class Systemd(Service):
    def test_it_is_ready_also_while_it_waits_and_says_for_what(self) -> None:
        for part, comes in (("eth1", 1), ("e*2", 2)):
            live = self.service(part, awaits=False)
            self.assertEqual(self.heard.next(), ["READY=1"])
            self.assertEqual(self.heard.next(), [f"STATUS=waiting for an interface: {part}"])
            self.assertIn("live.agent=waiting", live.ask("live"))
            self.assertIn("\nlldpa_agent_state{state=\"waiting\"} 1\n", live.ctl("metrics"))
            for _ in range(2):
                self.assertEqual(self.heard.next(), ["WATCHDOG=1"])
            self.wires.add_link(comes)
            self.assertTrue(self.heard.hears("READY=1"))
            self.assertIn("live.agent=running", live.ask("live"))
            self.assertTrue(self.heard.hears("STATUS=no neighbors on 1 port"))
            live.close()
            self.heard.forget()

    def test_its_status_has_ports_and_neighbors(self) -> None:
        live, peer = self.service("eth0", "eth1", "--", "--receive-only"), self.peer()
        self.assertTrue(self.heard.hears("STATUS=no neighbors on 2 ports"))
        peer.send(numbered(1))
        self.assertTrue(self.heard.hears("STATUS=1 neighbor on 2 ports"))
        peer.send(numbered(2, 2))
        self.assertTrue(self.heard.hears("STATUS=2 neighbors on 2 ports"))
        self.assertTrue(self.heard.hears("STATUS=1 neighbor on 2 ports"))  # one has aged out
        peer.send(numbered(1, 0))
        self.assertTrue(self.heard.hears("STATUS=no neighbors on 2 ports"))
        self.assertNotIn("eth0", live.errors())  # without --events

    @by_the_clock
    def test_its_status_changes_at_most_once_a_second(self) -> None:
        live, peer = self.service("eth0", "--", "--receive-only", seconds=60), self.peer()
        self.assertTrue(self.heard.hears("STATUS=no neighbors on 1 port"))
        began = time.monotonic()
        for number in range(150):
            peer.send(numbered(number, 600))
            peer.send(numbered(number, 600 if number > 147 else 0))
            time.sleep(0.02)
        span = time.monotonic() - began
        self.assertTrue(self.heard.hears("STATUS=2 neighbors on 1 port", 2))
        told = [lines for lines in self.heard.datagrams if lines[0].startswith("STATUS=")]
        self.assertLessEqual(len(told), span + 3)
        self.assertEqual(live.number("seconds") > 0, True)

    def test_it_tells_that_it_ends(self) -> None:
        live = self.service("eth0")
        self.assertTrue(self.heard.hears("READY=1"))
        live.signal(signal.SIGTERM)
        self.assertTrue(self.heard.hears("STOPPING=1"))
        self.assertEqual(live.ends(), 0)

    @by_the_clock
    def test_signs_of_life_come_while_it_turns(self) -> None:
        live = self.service("eth0", seconds=8)
        for _ in range(3):
            self.assertTrue(self.heard.hears("WATCHDOG=1", 8))
        with live.stopped():
            self.heard.forget()
            self.assertFalse(self.heard.hears("WATCHDOG=1", 4))
        self.assertTrue(self.heard.hears("WATCHDOG=1"))

    def test_an_abstract_name_begins_with_an_at_sign(self) -> None:
        name = f"lldpa-test-{os.getpid()}"
        with inside(self.wires.here):
            abstract = socket.socket(socket.AF_UNIX, socket.SOCK_DGRAM)
        with abstract:
            abstract.bind("\0" + name)
            abstract.settimeout(SECONDS)
            self.live("eth0", env={**os.environ, "NOTIFY_SOCKET": "@" + name}, awaits=False)
            self.assertEqual(abstract.recv(100), b"READY=1")

    def test_no_sign_of_life_is_given_that_nobody_wants(self) -> None:
        for wanted in ({"WATCHDOG_USEC": "0"}, {"WATCHDOG_USEC": "30s"},
                       {"WATCHDOG_USEC": "1000000", "WATCHDOG_PID": "1"}):
            live = self.live("eth0", env={**self.heard.environment(), **wanted})
            self.assertTrue(self.heard.hears("READY=1"), wanted)
            self.assertFalse(self.heard.hears("WATCHDOG=1", 1.5), wanted)
            live.close()


class Events(Service):
    def told(self, live: Live) -> list[str]:
        """Returns the lines about neighbors on standard error."""
        return re.findall("^lldpa-live: (eth0 (?:came|changed|gone): .*)$", live.errors(), re.M)

    def test_a_line_for_each_that_comes_changes_or_goes(self) -> None:
        live, peer = self.receiving("--events")
        steps = ((numbered(1, 60, tlv(5, b"a")), "eth0 came: a p1"),
                 (numbered(1, 60, tlv(5, b"b")), "eth0 changed: b p1; chassis.name: a -> b"),
                 (numbered(1, 0), "eth0 gone: b p1"),
                 (numbered(2, 2), "eth0 came: 02:00:00:00:00:02 p2"))
        for number, (octets, line) in enumerate(steps, 1):
            for _ in range(3):  # repeated frames are not reported
                peer.send(octets)
            self.assertTrue(eventually(lambda: len(self.told(live)) >= number), line)
            self.assertEqual(self.told(live)[-1], line)
        self.assertTrue(live.says("eth0 gone: 02:00:00:00:00:02 p2"))  # it has aged out
        peer.send(numbered(3))
        self.assertTrue(live.says("eth0 came: 02:00:00:00:00:03 p3"))
        live.ask("configure ports eth0 lldp status disabled")
        self.assertTrue(live.says("eth0 gone: 02:00:00:00:00:03 p3"))
        self.assertEqual(len(self.told(live)), 7)

    def test_changes_of_each_port_are_counted(self) -> None:
        state = State()
        self.addCleanup(state.folder.cleanup)
        live, peer = self.receiving(*state.words)
        self.assertIn("live.version=1.0.0", live.ask("live"))
        steps = ((numbered(1, 60, tlv(5, b"a")), "1 0 0"), (numbered(1, 60, tlv(5, b"a")), "1 0 0"),
                 (numbered(1, 60, tlv(5, b"a")).ljust(99, b"\0"), "1 0 0"),  # the same, as short frames are sent
                 (numbered(1, 60, tlv(5, b"b")), "1 1 0"), (numbered(2, 2), "2 1 0"), (numbered(1, 0), "2 1 1"))
        for octets, wanted in steps:
            peer.send(octets)
            self.assertEqual(self.counted(live), wanted)
        self.assertTrue(eventually(lambda: self.counted(live) == "2 1 2"), "one ages out")
        peer.send(numbered(3, 600))
        live.ask("configure ports eth0 lldp status disabled")
        self.assertEqual(self.counted(live), "3 1 3")
        live.ask("configure ports eth0 lldp status rx-only")
        peer.send(numbered(3, 600))
        self.assertEqual(self.counted(live), "4 1 3")
        self.assertEqual(live.ended(), 0)
        live = self.live(*state.words, "eth0", "--", "--receive-only")
        self.assertEqual((live.neighbors(), self.counted(live)), (1, "0 0 0"), "it is still there")

    def counted(self, live: Live) -> str:
        """Returns how often neighbors came, changed and went."""
        return " ".join(live.told("live", f"live.eth0.{key}") for key in ("came", "changed", "gone"))

    def test_no_more_than_a_hundred_lines_a_minute(self) -> None:
        live = self.live("--events", "eth0", "--", "--receive-only", "--max-neighbors", "128")
        peer = self.peer()
        for ttl, held in ((120, 120), (0, 0), (120, 120)):
            for number in range(120):
                peer.send(numbered(number, ttl))
            self.assertTrue(eventually(lambda: live.neighbors() == held), live.errors())
        self.assertTrue(eventually(lambda: len(self.told(live)) == 100), live.errors())
        live.spend(2)
        self.assertEqual(len(self.told(live)), 100)
        more = r"(?m)^lldpa-live: eth0: \d+ more changes within a minute$"
        self.assertTrue(eventually(lambda: re.search(more, live.errors()), 65))

    def test_links_and_want_of_room_are_told(self) -> None:
        live, peer = self.live("--events", "eth0", "--", "--receive-only",
                               "--max-neighbors", "1"), self.peer()
        for number in (1, 2):
            peer.send(numbered(number, 60))
        self.assertTrue(live.says("lldpa-live: eth0 has no room for a neighbor\n"))
        self.wires.set_link("eth0", "down")
        self.assertTrue(live.says("lldpa-live: eth0: the link is down\n"))
        self.wires.set_link("eth0", "up")
        self.assertTrue(live.says("lldpa-live: eth0: the link is up\n"))
        self.assertEqual(live.errors().count("no room"), 1)

    def test_the_journal_is_told_levels_in_place_of_the_name(self) -> None:
        journal = ["sh", "-c", 'JOURNAL_STREAM=$(stat -L -c %d:%i /dev/fd/2) exec "$@"', "sh"]
        settings = self.folder / "settings.conf"
        live = self.live("--events", "--config", str(settings), "eth0", "--",
                         "--receive-only", before=journal)
        self.peer().send(numbered(1, 60, tlv(5, b"a")))
        self.assertTrue(live.says("<6>eth0 came: a p1\n"))
        self.assertEqual(live.reload(settings).returncode, 0)
        self.assertTrue(live.says("<5>the settings were read again by user "))
        settings.write_text("configure lldp tx-hold 0\n")
        self.assertEqual(live.reload(settings).returncode, 1)
        self.assertTrue(live.says("<4>1 setting was not applied\n"))
        self.assertNotIn("lldpa-live", live.errors())
        live = self.live("--only-existing", "eth9", before=journal)
        self.assertEqual((live.ends(), live.errors()[:9]), (1, "<3>eth9: "))

    def test_no_line_is_too_long(self) -> None:
        live, peer = self.receiving("--events")
        peer.send(numbered(1, 60, tlv(5, b"a" * 255)))
        self.assertTrue(live.says(f"lldpa-live: eth0 came: {'a' * 255} p1\n"))
        peer.send(numbered(1, 60, tlv(5, b"\x01" * 255)))
        self.assertTrue(live.says("eth0 changed: "))
        line = live.errors().splitlines()[1]
        self.assertEqual((len(line), line[-4:]), (len("lldpa-live: ") + 1000, " ..."))

    def test_a_name_that_would_write_to_a_terminal_is_escaped(self) -> None:
        live, peer = self.receiving("--events")
        peer.send(numbered(1, 60, tlv(5, b"\x1b[2J\nlldpa-live: eth0 gone: all")))
        self.assertTrue(live.says(r"eth0 came: \x1b[2J\x0alldpa-live: eth0 gone: all p1"))
        self.assertEqual(live.errors().count("\n"), 1)
