"""Tests that lldpa-live starts a new agent to announce a changed management address."""

import os
import shutil
import signal
import subprocess
import time
import unittest
from pathlib import Path
from typing import Optional

from asking import since_of
from patience import by_the_clock, eventually
from real_lldpd import Lldpd, beside_lldpd
from replaced import Replaced
from replays import Moments, differing, sent
from running_live import NO_ADDRESS
from wires import inside, ip

SECONDS_TO_PEERS = 8.0
STEPS = ((["add 192.0.2.7/24"], "192.0.2.7"),
         (["add 198.51.100.7/24", "del 192.0.2.7/24"], "198.51.100.7"),
         (["del 198.51.100.7/24"], None))


@beside_lldpd
@unittest.skipUnless(shutil.which("tshark"), "tshark: it is not installed")
class AtPeers(Replaced):
    """Tests what real peers receive: lldpd on both links, tshark on the second."""

    def setUp(self) -> None:
        super().setUp()
        self.lldpd = Lldpd(self.wires.there, self.folder, "-r", "-I", "peer0,peer1")
        self.addCleanup(self.lldpd.close)
        self.watched = self.output("lldpcli", "-u", self.lldpd.socket, "-f", "keyvalue", "watch")
        self.captured = self.output("tshark", "-l", "-n", "-i", "peer1", "-f",
                                    "inbound and ether proto 0x88cc", "-T", "fields", "-e",
                                    "lldp.time_to_live", "-e", "lldp.mgn.addr.ip4")
        self.assertTrue(eventually(lambda: "Capturing" in self.captured.read_text()))

    def output(self, *words: str) -> Path:
        """Starts a program on the peers' side, and returns the file with its output."""
        path = self.folder / words[0]
        with inside(self.wires.there), path.open("wb") as file:
            program = subprocess.Popen(words, stdin=subprocess.DEVNULL, stdout=file, stderr=file,
                                       start_new_session=True)
        self.addCleanup(program.wait)
        self.addCleanup(os.killpg, program.pid, signal.SIGKILL)  # tshark has a child
        return path

    def is_there(self, address: Optional[str]) -> bool:
        """True if both peers have this address (or None), and tshark saw it in the last frame."""
        wanted = set() if address is None else {address}
        last = self.captured.read_text().splitlines()[-1]
        return (last == f"121\t{address or ''}"
                and all(self.lldpd.values(f"{peer}.chassis.mgmt-ip") == wanted
                        for peer in ("peer0", "peer1")))

    def is_followed_at(self, interface: str) -> None:
        """Adds, changes and removes an address, and checks that the peers receive each change."""
        live = self.begun()
        self.assertTrue(eventually(lambda: self.is_there(None)))
        before, began, since = self.neighbors(live), time.monotonic(), since_of(live.ask("live"))
        moments = Moments(live)
        moments.take()
        for changes, address in STEPS:
            changed = time.monotonic()
            for change in changes:
                ip("-n", self.wires.here, "address", *change.split(), "dev", interface)
            self.assertTrue(eventually(lambda: self.is_there(address)), (address, live.errors()))
            self.assertLess(time.monotonic() - changed, SECONDS_TO_PEERS)
            moments.take()
        self.stays(before, began, live)
        self.assertEqual(since_of(live.ask("live")), since)
        self.assertNotIn("lldp-deleted.", self.watched.read_text())
        said = [live.errors().count(text) for text in ("the management address is", "came", "gone")]
        self.assertEqual(said, [3, 4, 0])
        live.signal(signal.SIGTERM)
        self.assertEqual(live.ends(), 0)
        self.assertTrue(eventually(lambda: "lldp-deleted.peer1" in self.watched.read_text()))
        self.assertEqual(differing(self.log, moments), [])
        for port, peer in zip(("eth0", "eth1"), self.peers):
            heard = list(iter(lambda: peer.hears(0.5), None))
            self.assertEqual(heard, sent(self.log, port, self.wires.address(port)))

    @by_the_clock
    def test_an_address_of_a_port_is_at_the_peers(self) -> None:
        self.is_followed_at("eth0")

    def is_followed_above(self, kind: str) -> None:
        """Makes an interface of this kind above the first port, and tests the addresses there."""
        if not self.can_make("above0", "type", kind):
            self.skipTest(f"link-{kind}: this kernel has none")
        for words in ("eth0 down", "eth0 master above0", "eth0 up", "above0 up"):
            ip("-n", self.wires.here, "link", "set", *words.split())
        eventually(self.wires.all_up)
        self.is_followed_at("above0")

    @by_the_clock
    def test_an_address_of_a_bridge_above_a_port_is_at_the_peers(self) -> None:
        self.is_followed_above("bridge")

    @by_the_clock
    def test_an_address_of_a_bond_above_a_port_is_at_the_peers(self) -> None:
        self.is_followed_above("bond")

    @by_the_clock
    def test_an_address_of_a_team_above_a_port_is_at_the_peers(self) -> None:
        self.is_followed_above("team")


class Addresses(Replaced):
    def add(self, address: str, interface: str = "eth0", word: str = "add") -> None:
        """Adds an address to this host, or removes it if `word` is `del`."""
        ip("-n", self.wires.here, "address", word, f"{address}/24", "dev", interface)

    def test_an_address_of_a_bridge_is_left_when_the_port_leaves_the_bridge(self) -> None:
        here = self.wires.here
        ip("-n", here, "link", "add", "br0", "up", "type", "bridge")
        ip("-n", here, "link", "set", "eth0", "master", "br0")
        self.add("192.0.2.8", "lo")
        self.add("192.0.2.9", "br0")
        self.begun()
        self.assertTrue(self.hears_address("192.0.2.9"))
        ip("-n", here, "link", "set", "eth0", "nomaster")
        self.assertTrue(self.hears_address("192.0.2.8"))

    def test_any_other_address_of_this_host_is_announced_in_a_fixed_order(self) -> None:
        live, here = self.begun(), self.wires.here
        made = [name for name, words in (
            ("bridge0", ["type", "bridge"]), ("vlan5", ["link", "eth1", "type", "vlan", "id", "5"]),
            ("mac0", ["link", "eth1", "type", "macvlan"]))
            if self.can_make(name, *words)]
        on_a_port = [name for name in reversed(made) if name != "bridge0"]
        # each has a lower number than those before it, and what is on a port comes first
        others = [*(name for name in made if name == "bridge0"), "lo", *on_a_port]
        for place, name in enumerate(others, 1):
            ip("-n", here, "link", "set", name, "up")
            self.add(f"192.0.2.{place}", name)
            self.assertTrue(self.hears_address(f"192.0.2.{place}"), name)
        self.add("198.51.100.1", "eth1")
        self.assertTrue(self.hears_address("198.51.100.1"))
        self.add("198.51.100.1", "eth1", "del")
        self.assertTrue(self.hears_address(f"192.0.2.{len(others)}"))
        for place, name in enumerate(others, 1):
            self.add(f"192.0.2.{place}", name, "del")
        self.assertTrue(self.hears_address(None))
        self.assertTrue(eventually(lambda: live.said().count(NO_ADDRESS) == 2))

    def test_a_port_that_only_receives_misses_no_address(self) -> None:
        live, _ = self.receiving()
        live.ask("live")
        self.assertNotIn(NO_ADDRESS, live.said())

    def vlan_and_docker(self) -> None:
        """Makes docker0 with an address, and then a VLAN of a port with another."""
        here = self.wires.here
        ip("-n", here, "link", "add", "docker0", "up", "type", "bridge")
        self.add("172.17.0.1", "docker0")
        if not self.can_make("eth1.10", "link", "eth1", "type", "vlan", "id", "10"):
            self.skipTest("link-vlan: this kernel has none")
        ip("-n", here, "link", "set", "eth1.10", "up")
        self.add("192.0.2.10", "eth1.10")

    def test_an_address_of_a_vlan_of_a_port_comes_before_one_of_docker(self) -> None:
        self.vlan_and_docker()
        live = self.live("eth0", "eth1")
        self.assertIn("local-chassis.mgmt=192.0.2.10,1,0,", live.ask("show chassis"))
        self.add("192.0.2.10", "eth1.10", "del")
        self.assertTrue(self.hears_address("172.17.0.1"))
        self.add("192.0.2.10", "eth1.10")
        self.assertTrue(self.hears_address("192.0.2.10"))

    def test_an_address_of_a_vlan_of_another_interface_does_not(self) -> None:
        self.vlan_and_docker()
        live = self.live("eth0")
        self.assertIn("local-chassis.mgmt=172.17.0.1,1,0,", live.ask("show chassis"))

    def test_patterns_choose_among_the_addresses(self) -> None:
        self.vlan_and_docker()
        self.add("198.51.100.7", "eth0")
        self.add("203.0.113.9", "lo")
        for patterns, address in (("172.17.*", "172.17.0.1"), ("!198.51.*", "192.0.2.10"),
                                  ("192.0.2.*,!172.17.*", "192.0.2.10"), ("203.*", "203.0.113.9"),
                                  ("*,!198.51.100.?,!192.*", "203.0.113.9"), ("10.*", None),
                                  ("*,!198.51.100.?,!192.*,!203.*", "172.17.0.1"),
                                  ("!*,!!203.*", "203.0.113.9"), ("*", "198.51.100.7")):
            live = self.live("--management-pattern", patterns, "eth0", "eth1")
            found = [line for line in live.ask("show chassis") if ".mgmt=" in line]
            self.assertEqual(found, [f"local-chassis.mgmt={address},1,0,"] if address else [],
                             patterns)
            live.close()

    def test_patterns_hold_for_addresses_that_come_later(self) -> None:
        live = self.live("--management-pattern", "192.0.2.*", "eth0", "eth1")
        self.add("172.17.0.1")
        live.spend(4)
        self.assertFalse(any("mgmt" in line for line in live.ask("show chassis")))
        self.add("192.0.2.7", "lo")
        self.assertTrue(self.hears_address("192.0.2.7"))
        given = self.live("--management-pattern", "192.0.2.*", "eth0", "--", "--management",
                          "10.0.0.1")
        self.assertIn("local-chassis.mgmt=10.0.0.1,1,0,", given.ask("show chassis"))

    def test_an_address_that_goes_again_within_two_seconds_changes_nothing(self) -> None:
        live = self.begun()
        self.add("192.0.2.7")
        self.add("192.0.2.7", word="del")
        live.spend(4)
        self.assertNotIn("the management address is", live.errors())
        self.assertEqual(len(list(self.log.iterdir())), 1)  # another agent begins another file

    def test_an_address_that_was_given_or_refused_is_not_followed(self) -> None:
        for words in (["--no-management", "eth0"], ["eth0", "--", "--management", "192.0.2.1"]):
            live = self.live(*words)
            before = live.ask("show chassis")
            self.add("192.0.2.7")
            live.spend(4)
            self.assertEqual(live.ask("show chassis"), before)
            self.assertEqual(live.errors(), "")
            live.close()
            self.add("192.0.2.7", word="del")
