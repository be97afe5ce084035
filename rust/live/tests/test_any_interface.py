"""Tests that no interface, whatever it is, keeps lldpa-live from running on the others."""

import os
import signal
import subprocess

from patience import eventually
from running_live import OnLinks
from served import numbered
from wires import ip


class AnyInterface(OnLinks):
    links = 2

    def make(self, *words: str) -> None:
        """Makes an interface here, or skips the test if this kernel does not have its kind."""
        made = subprocess.run(["ip", "-n", self.wires.here, *words], capture_output=True, text=True)
        if made.returncode:
            kind = "vlan" if "vlan" in words else "tun"
            self.skipTest(f"link-{kind}: ip {' '.join(words)}: {made.stderr.strip()}")

    def runs_with(self, *words: str, said: str) -> None:
        """Checks that lldpa-live runs on eth0 and eth1 beside these words, and says this once."""
        live = self.live("eth0", *words, "eth1", "--", "--receive-only")
        self.assertIsNone(live.process.poll(), (words, live.errors()))
        for number in (0, 1):
            self.peer(f"peer{number}").send(numbered(number + 1))
            self.assertTrue(eventually(lambda: live.neighbors(f"eth{number}") == 1), words)
        self.assertTrue(live.says(said), (words, live.errors()))
        live.spend(3)
        self.assertEqual(live.errors().count(said), 1, words)
        self.assertEqual(live.ended(signal.SIGTERM), 0)

    def test_lo(self) -> None:
        self.runs_with("lo", said="lo: ")

    def test_a_tun(self) -> None:
        self.make("tuntap", "add", "tun0", "mode", "tun")
        self.runs_with("tun0", said="tun0: ")

    def test_a_vlan(self) -> None:
        self.make("link", "add", "link", "eth0", "name", "eth0.10", "up", "type", "vlan", "id",
                  "10")
        self.runs_with("eth0.10", said="eth0.10: ")

    def test_a_vlan_that_is_missing(self) -> None:
        self.runs_with("eth0.11", said="eth0.11: ")

    def test_one_that_is_given_twice(self) -> None:
        self.runs_with("eth0", said="eth0")

    def test_one_that_is_missing(self) -> None:
        self.runs_with("eth9", said="eth9: no such interface yet")

    def test_one_that_is_missing_is_told_with_the_file_that_names_it(self) -> None:
        file = {**os.environ, "PORTS_FILE": "/etc/default/lldpa"}
        see = " (see PORTS in /etc/default/lldpa)"
        live = self.live("eth9", "eth0", "eth0.10", env=file)
        self.assertTrue(live.says(f"eth9: no such interface yet; waiting for it{see}\n"))
        self.assertIn(f"; name eth0{see}\n", live.errors())
        live = self.live("eth9", awaits=False, env=file)
        self.assertTrue(live.says(f"until then nothing is sent or received{see}\n"))

    def test_a_vlan_alone_is_not_waited_for(self) -> None:
        live = self.live("eth0.5", awaits=False)
        live.comes_to("live.agent=waiting")
        self.assertEqual(live.errors(), "lldpa-live: eth0.5: this is not waited for: a VLAN interface cannot be a "
                         "port, since LLDP frames have no tag; name eth0\n"
                         "lldpa-live: no name that was given can be a port, so nothing is sent or received\n")
        self.assertEqual(live.ask_refused("show neighbors"), "waiting for an interface: none, since no name that was "
                         "given can be a port")

    def test_one_that_is_missing_sends_nothing(self) -> None:
        live = self.live("eth9", "eth0")
        self.assertIsNotNone(self.peer().hears())
        told = live.ask("show statistics")
        self.assertIn("lldp.eth9.sent=0", told)
        self.assertNotIn("lldp.eth0.sent=0", told)

    def test_all_at_once_and_counted(self) -> None:
        self.make("tuntap", "add", "tun0", "mode", "tun")
        live = self.live("lo", "eth0", "tun0", "eth0.10", "eth1", "eth1", "eth9", "--",
                         "--receive-only")
        self.assertIsNone(live.process.poll(), live.errors())
        self.becomes_neighbor(live)
        self.assertTrue(eventually(lambda: live.number("ports-refused") == 4),
                        live.ask("live"))  # lo, tun0, eth0.10, and eth1 once more
        self.assertIn("\nlldpa_ports_refused 4\n", live.ctl("metrics"))

    def test_none_that_can_be_used_is_waited_for(self) -> None:
        live = self.live("lo", awaits=False)
        live.comes_to("live.agent=waiting")
        self.assertTrue(live.says("lo: no such Ethernet interface yet, and lldpa-live runs on no "
                                  "others; waiting for one, and until then"), live.errors())
        self.assertEqual(live.ended(), 0)

    def test_one_that_comes_later_under_the_name_of_a_port(self) -> None:
        live = self.live("eth0", "late", "--", "--receive-only")
        self.make("tuntap", "add", "late", "mode", "tun")
        self.assertTrue(live.says("late: not an Ethernet interface, so it is not used"))
        self.becomes_neighbor(live)
        ip("-n", self.wires.here, "link", "del", "late")
        self.wires.add_guest("late", "far1")
        live.comes_to("live.late.link=up")
        self.peer("far1").send(numbered(7))
        self.assertTrue(eventually(lambda: live.neighbors("late") == 1))

    def test_one_that_is_gone_stays_a_port_when_others_come_and_go(self) -> None:
        live = self.live("eth0", "eth1", "vnet*", "--", "--receive-only")
        self.wires.remove_link("eth1")
        live.comes_to("live.eth1.interface=awaited")
        live.spend(3)
        self.wires.add_guest("vnet1", "far1")
        live.comes_to("live.vnet1.link=up")
        self.assertIn("live.eth1.interface=awaited", live.ask("live"))
        self.wires.remove_link("vnet1")
        self.assertTrue(eventually(lambda: "vnet1" not in "".join(live.ask("live"))))
        self.assertIn("live.eth1.interface=awaited", live.ask("live"))

    def test_one_that_is_gone_for_long_is_waited_for(self) -> None:
        live = self.live("eth0", "eth1", "--", "--receive-only")
        live.ask("configure ports eth1 lldp status disabled")
        self.wires.remove_link("eth1")
        live.comes_to("live.eth1.interface=awaited")
        used = live.used()
        live.spend(4)  # a port that a pattern gave would be gone after 2
        self.assertLess(live.used() - used, 1)
        self.assertIn("live.eth1.interface=awaited", live.ask("live"))
        self.assertIn("configuration.eth1.status=disabled", live.ask("show configuration"))
        live.ask("configure ports eth1 lldp status rx-only")
        self.wires.add_link(1)
        live.comes_to("live.eth1.link=up")
        self.peer("peer1").send(numbered(1))
        self.assertTrue(eventually(lambda: live.neighbors("eth1") == 1))
        self.assertEqual(live.neighbors("eth0"), 0)
