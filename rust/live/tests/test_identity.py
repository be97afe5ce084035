"""Tests what the agent announces of this host: chassis ID, name and addresses."""

import os
import signal
import subprocess
import sys
import time

from kept import State
from running_live import Live, OnLinks
from patience import eventually
from wires import ip, tlvs_of


# runs a program in a mount namespace in which one file replaces another
MOUNTED = ["unshare", "--mount", "sh", "-c", 'mount --bind "$1" "$2" && shift 2 && exec "$@"', "sh"]
class TestLate(OnLinks):
    """Tests an lldpa-live that starts before its interface exists."""

    links = 0

    def test_interface_that_comes_names_the_host(self) -> None:
        here = self.wires.here  # it has interfaces that are neither ports nor hardware
        ip("-n", here, "link", "add", "docker0", "up", "type", "bridge")
        ip("-n", here, "link", "add", "vethA", "up", "type", "veth", "peer", "name", "vethB")
        ip("-n", here, "link", "set", "vethB", "up")
        live = self.live("eth0", "eth1", awaits=False)
        self.assertTrue(live.says("eth0 eth1: no such interface yet; waiting for one"))
        live.comes_to("live.agent=waiting")
        self.assertEqual(live.ask_refused("show neighbors"),
                         "waiting for an interface: eth0 eth1")
        time.sleep(0.5)
        self.assertEqual(live.errors().count("\n"), 1, live.errors())
        self.wires.add_link(0)
        self.assertTrue(eventually(live.answers))
        self.assertIn(f"local-chassis.mac={self.wires.address('eth0').hex(':')}",
                      live.ask("show chassis"))
        self.assertTrue(live.says("eth0: the interface is there, and in use"))
        self.becomes_neighbor(live)

    def test_it_sleeps_and_ends_while_it_waits(self) -> None:
        state = State()
        self.addCleanup(state.folder.cleanup)
        live = self.live(*state.words, "eth0", awaits=False)
        live.comes_to("live.agent=waiting")
        before = live.used()
        time.sleep(2)
        self.assertLess(live.used() - before, 0.1)
        self.assertEqual(live.ended(), 0, live.errors())


class TestAnnounced(OnLinks):
    """Tests what is announced, and from which source address."""

    links = 2

    def test_description_and_management_address(self) -> None:
        ip("-n", self.wires.here, "addr", "add", "192.0.2.7/24", "dev", "eth0")
        shown = self.live("--no-domain", "eth0").ask("show chassis")
        self.assertIn("local-chassis.mgmt=192.0.2.7,1,0,", shown)
        self.assertIn(f"local-chassis.name={os.uname().nodename}", shown)
        shown = self.live("--no-description", "--no-management", "eth0").ask("show chassis")
        self.assertIn("local-chassis.descr=", shown)
        self.assertFalse(any("mgmt" in line for line in shown))
        shown = self.live("eth0", "--", "--management", "192.0.2.9").ask("show chassis")
        self.assertIn("local-chassis.mgmt=192.0.2.9,1,0,", shown)

    def test_description_is_the_pretty_name(self) -> None:
        path = self.folder / "os-release"
        for text, wanted in (('NAME=x\nPRETTY_NAME="Debian GNU/Linux 12"\n', "Debian GNU/Linux 12"),
                             ("PRETTY_NAME=Plain\n", "Plain"), ("NAME=x\n", "lldpa"),
                             ("PRETTY_NAME='caf\\\xe9 \"q\"'\n", r"caf\\ q"),
                             (f"PRETTY_NAME={'x' * 300}\n", "x" * 255)):
            path.write_text(text, encoding="latin-1")
            live = self.live("eth0", before=[*MOUNTED, str(path), "/etc/os-release"])
            self.assertIn(f"local-chassis.descr={wanted}", live.ask("show chassis"))
            live.close()

    def test_each_port_sends_from_its_own_address_and_names_one_chassis(self) -> None:
        for words, chassis in (([], self.wires.address("eth0")),
                               (["--", "--mac", "02:00:5e:00:53:77"],
                                bytes.fromhex("02005e005377"))):
            peers = [self.peer("peer0"), self.peer("peer1")]
            live = self.live("eth0", "eth1", *words)
            for frames in ([peer.hears() for peer in peers],
                           (live.signal(signal.SIGTERM), [peer.hears(ttl=0) for peer in peers])[1]):
                for octets, end in zip(frames, ("eth0", "eth1")):
                    assert octets is not None
                    self.assertEqual(octets[:12].hex(),
                                     "0180c200000e" + self.wires.address(end).hex())
                    self.assertEqual(dict(tlvs_of(octets))[1], b"\4" + chassis)
            self.assertEqual(live.ends(), 0)

    def test_a_port_whose_address_is_changed_sends_from_the_new_one(self) -> None:
        live, peer = self.live("eth0"), self.peer()
        chassis = self.wires.address("eth0")
        self.wires.set_link("eth0", "address", "02:00:5e:00:53:99")
        live.ask("configure lldp tx-interval 1")
        source = bytes.fromhex("02005e005399")
        self.assertTrue(eventually(lambda: (octets := peer.hears(2) or bytes(14))[6:12] == source
                                   and dict(tlvs_of(octets))[1] == b"\4" + chassis))

    def test_name_of_the_host_is_followed(self) -> None:
        def rename(live: Live, name: str) -> None:
            words = ["nsenter", f"--uts=/proc/{live.process.pid}/ns/uts", sys.executable, "-c"]
            subprocess.run([*words, f"import socket; socket.sethostname({name!r})"], check=True)

        live = self.live("eth0", before=["unshare", "--uts"])
        given = self.live("eth0", "--", "--hostname", "given", before=["unshare", "--uts"])
        rename(live, "büro")
        self.assertTrue(live.says("the host name büro cannot be announced, so the old one stays"))
        rename(live, "renamed-1")
        rename(given, "renamed-1")
        self.assertTrue(eventually(lambda: "local-chassis.name=renamed-1"
                                   in live.ask("show chassis"), 5))
        self.assertIn("local-chassis.name=given", given.ask("show chassis"))
        live.ask("configure system hostname chosen")
        rename(live, "renamed-2")
        live.spend(2)
        self.assertIn("local-chassis.name=chosen", live.ask("show chassis"))

    def test_unsent_frames_are_counted_and_told_once(self) -> None:
        live = self.live("eth0")
        live.ask("configure lldp tx-interval 1")
        self.wires.set_link("eth0", "mtu", "68")
        self.assertTrue(live.says("eth0: a frame was not sent: "))
        self.assertTrue(eventually(lambda: live.number("eth0.unsent") > 1))
        self.assertEqual(live.errors().count("a frame was not sent"), 1)
