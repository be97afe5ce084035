"""Tests that an agent that takes over has everything that the old one had, and counts on."""

import re
import time
from typing import Callable, Dict

from patience import eventually
from replaced import LONG, Replaced
from running_live import Live
from served import numbered, tlv
from wires import ip

SETTINGS = """\
configure lldp tx-interval 17
configure lldp tx-hold 9
configure lldp max-neighbors 7
configure system hostname "another name"
configure system description "another \\ text"
configure ports eth0 lldp status rx-only
configure ports eth1 lldp status tx-only
configure ports eth3 lldp status disabled
""".splitlines()
OPTIONS = ("--role=router", "--tx-credit-max=9", "--tx-fast-init=3", "--reinit-delay=7",
           "--mac=02:00:5e:00:53:01", "--max-neighbors=100")


class Everything(Replaced):
    """Tests with every setting, limit, counter and table changed."""

    links = 5

    def changed(self, *words: str) -> Live:
        """Starts an lldpa-live, and changes all that can be changed."""
        live = self.recorded("--events", *words, *(f"eth{one}" for one in range(5)), "--", *OPTIONS)
        self.speak(live)
        for line in SETTINGS:
            self.assertEqual(live.ask(line), [], line)
        self.wires.set_link("peer2", "down")
        live.comes_to("live.eth2.link=down")
        self.peers[0].send(numbered(50, 500))  # has no room
        self.assertTrue(eventually(lambda: "lldp.eth0.too-many=yes" in live.ask("show neighbors")))
        return live

    def speak(self, live: Live) -> None:
        """Sends frames that change every counter, at eth0, and some at eth2 and eth4."""
        far, last = self.peer("peer2"), self.peer("peer4")
        for number in range(8):
            self.peers[0].send(numbered(number, LONG + number, tlv(5, b"sw%d" % number)))
        self.peers[0].send(numbered(7, 0))
        self.peers[0].send(numbered(9, 1))
        self.peers[0].send(numbered(10)[:20])
        self.peers[0].send(numbered(1, LONG + 1, tlv(100, b"?"), tlv(5, b"sw1")))
        for number, peer in ((20, far), (21, last), (22, last)):
            peer.send(numbered(number, LONG))
        self.assertTrue(eventually(lambda: "lldp.eth0.ageouts=1" in live.ask("show statistics")))
        self.assertTrue(eventually(lambda: live.neighbors("eth4") == 2))
        self.assertEqual((live.neighbors(), live.neighbors("eth2")), (7, 1))

    def seen(self, live: Live) -> Dict[str, "list[str]"]:
        """Returns all that can be asked, without what changes with each second."""
        return {what: [line for line in live.ask(what)
                       if not re.search(r"\.expires=|^live\.seconds=|\.sent=|\.mgmt=", line)]
                for what in ("show neighbors", "show chassis", "show configuration",
                             "show statistics", "live")}

    def stays_as_it_was(self, live: Live, replace: Callable[[], None]) -> None:
        """Checks that nothing is different once another agent has taken over."""
        files, before, began = len(list(self.log.iterdir())), self.seen(live), time.monotonic()
        left = {one.id: one.expires for one in self.neighbors(live)}
        replace()
        self.assertTrue(eventually(lambda: len(list(self.log.iterdir())) > files), live.errors())
        self.assertTrue(eventually(live.ask_quietly))
        after, passed = self.seen(live), time.monotonic() - began
        for what, lines in before.items():
            self.assertEqual(after[what], lines, what)
        for one in self.neighbors(live):
            self.assertAlmostEqual(left[one.id] - one.expires, passed, delta=2)

    def test_it_is_the_same_with_another_address(self) -> None:
        live = self.changed()
        for address in ("192.0.2.7", "192.0.2.8"):
            self.stays_as_it_was(live, lambda: ip("-n", self.wires.here, "address", "replace",
                                                  f"{address}/24", "dev", "eth0"))
            ip("-n", self.wires.here, "address", "flush", "dev", "eth0")
        self.goes_on(live)

    def goes_on(self, live: Live) -> None:
        """Checks the limit, the statuses, the condition of too many neighbors, and the link."""
        received = live.told("show statistics", "lldp.eth0.received")
        self.peers[0].send(numbered(51, LONG))
        self.assertTrue(eventually(lambda: live.told("show statistics", "lldp.eth0.received")
                                   == str(int(received) + 1)))
        self.assertEqual(live.neighbors(), 7)
        for number in range(2):
            self.peers[0].send(numbered(number, 0))
        self.assertTrue(eventually(lambda: live.neighbors() == 5))
        for number in (52, 53, 54):
            self.peers[0].send(numbered(number, LONG))
        self.assertTrue(eventually(lambda: live.neighbors() == 7))
        live.spend(1)
        self.assertEqual(live.neighbors(), 7)
        self.wires.set_link("peer2", "up")
        live.comes_to("live.eth2.link=up")

    def test_counters_go_on_without_the_replay(self) -> None:
        live = self.recorded("eth0", "eth1")
        for number in (1, 2, 3, 1):
            self.peers[0].send(numbered(number, LONG, tlv(5, b"%d" % number)))
        self.peers[0].send(numbered(4)[:20])
        self.assertTrue(eventually(lambda: live.told("show statistics", "lldp.eth0.received")
                                   == "5"))
        before = self.counters(live)
        for count, address in enumerate(("192.0.2.7", "192.0.2.8", "192.0.2.9"), 2):
            ip("-n", self.wires.here, "address", "flush", "dev", "eth1")
            ip("-n", self.wires.here, "address", "add", f"{address}/24", "dev", "eth1")
            self.assertTrue(self.hears_address(address))
            self.assertEqual(self.counters(live), before, address)
            self.assertIn('\nlldpa_received_total{port="eth0"} 5\n', live.ctl("metrics"))
        self.assertGreaterEqual(int(live.told("show statistics", "lldp.eth0.sent")), 4)
        self.peers[0].send(numbered(1, LONG, tlv(5, b"1")))
        self.assertTrue(eventually(lambda: live.told("show statistics", "lldp.eth0.received")
                                   == "6"))

    def counters(self, live: Live) -> "list[str]":
        return [line for line in live.ask("show statistics") if ".sent=" not in line]
