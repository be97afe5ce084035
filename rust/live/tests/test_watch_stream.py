"""Tests what clients that watch are sent, with a real lldpa-live and real links."""

import re
import signal
import subprocess
import unittest
from typing import Dict, List

from asking import Client, Gone
from patience import SECONDS, eventually
from running_live import Live, OnLinks
from served import CTL, numbered, tlv
from wires import Peer

MOST_WATCHING = 16
OF_PORT = 100  # neighbors
MANY = 400  # changes, with 4 MB of lines
FIRST = ["chassis.mac=02:00:00:00:00:01", "port.ifname=p1", "ttl=120"]
ID = "mac=02:00:00:00:00:01 ifname=p1"


def large(number: int, step: int) -> bytes:
    """Returns a frame of a neighbor that says something else with each step, in 10 kB of lines."""
    return numbered(number, 600, *[tlv(9, bytes([step % 256]))] * 400)


class Watch:
    """A client that watches, and the tables that it ends with."""

    def __init__(self, control: str, line: str = "watch") -> None:
        self.client = Client(control, SECONDS)
        self.client.connection.sendall(line.encode() + b"\n")
        self.client.connection.settimeout(SECONDS)
        self.tables: Dict[str, Dict[str, List[str]]] = {}
        self.lost = 0

    def take(self) -> List[str]:
        """Returns the next message, and does what it says."""
        lines = self.client.answer()
        front, _, value = lines[0].partition("=")
        if front == "live.lost":
            self.lost += int(value)
        elif front.endswith(".change"):
            kind, _, name = value.partition(" ")
            of_port = self.tables.setdefault(front.split(".")[1], {})
            of_port.pop(name, None)
            of_port.update({name: said(lines)} if kind != "gone" else {})
        else:
            self.tables[front.split(".")[1]] = tables(lines).get(front.split(".")[1], {})
        return lines

    def shown(self) -> Dict[str, Dict[str, List[str]]]:
        return {port: table for port, table in self.tables.items() if table}

    def until_complete(self) -> None:
        while not self.take()[0].startswith("live.lost="):
            pass

    def is_at_rest(self) -> bool:
        """Takes all that comes. Returns true once nothing has come for a second."""
        self.client.connection.settimeout(1)
        try:
            while True:
                self.take()
        except TimeoutError:
            return True
        finally:
            self.client.connection.settimeout(SECONDS)
            self.client.received = self.client.connection.makefile("rb")


def said(lines: List[str]) -> List[str]:
    """Returns what a neighbor says, without its place and the seconds left."""
    bare = [line.split(".", 3)[3] for line in lines if re.match(r"lldp\.[^.]+\.\d+\.", line)]
    return [line for line in bare if not line.startswith("expires=")]


def tables(lines: List[str]) -> Dict[str, Dict[str, List[str]]]:
    """Returns what each neighbor of each port says."""
    found: Dict[str, Dict[str, List[str]]] = {}
    for line in lines:
        match = re.match(r"lldp\.([^.]+)\.(\d+)\.(?!expires)(.*)", line)
        if match:
            found.setdefault(match[1], {}).setdefault(match[2], []).append(match[3])
    return {port: {name_of(one): one for one in places.values()} for port, places in found.items()}


def name_of(lines: List[str]) -> str:
    return " ".join(line.split(".", 1)[1] for line in lines[:2])


class WatchStream(OnLinks):
    links = 2

    def watched(self, live: Live, line: str = "watch") -> Watch:
        watch = Watch(live.control, line)
        self.addCleanup(watch.client.connection.close)
        return watch

    def ends_right(self, watch: Watch, live: Live) -> None:
        """Takes what comes, until the tables are those of `show neighbors`."""
        shown = tables(live.ask("show neighbors"))
        self.assertTrue(eventually(lambda: watch.is_at_rest() and shown == watch.shown()))

    def test_tables_come_first_and_then_each_change(self) -> None:
        live, peer = self.live("eth0", "eth1", "--", "--receive-only"), self.peer("peer0")
        peer.send(numbered(1))
        self.assertTrue(eventually(lambda: live.neighbors() == 1))
        watch = self.watched(live)
        since = [line for line in live.ask("live eth0") if ".since." in line]
        table = watch.take()
        self.assertEqual(table[:3], ["lldp.eth0.neighbors=1", "lldp.eth0.octets=18",
                                     "lldp.eth0.too-many=no"])
        self.assertEqual(said(table), FIRST)
        self.assertEqual(table[-2:], [*since, "live.chassis.1=mac=02:00:00:00:00:01"])
        self.assertEqual(watch.take()[0], "lldp.eth1.neighbors=0")
        self.assertEqual(watch.take(), ["live.lost=0"])
        for frame, kind, lines in ((numbered(1, 120, tlv(5, b"a")), "changed",
                                    [*FIRST, "chassis.name=a"]), (numbered(1, 0), "gone", [])):
            peer.send(frame)
            told = watch.take()
            self.assertEqual((told[0], said(told)), (f"live.eth0.change={kind} {ID}", lines))
        self.assertEqual(told, [f"live.eth0.change=gone {ID}"])
        peer.send(numbered(1))
        told = watch.take()
        self.assertEqual((told[0], said(told)), (f"live.eth0.change=came {ID}", FIRST))
        self.assertEqual(len(told), 1 + 4 + 2)

    def test_some_ports_and_wrong_ones(self) -> None:
        live = self.live("eth0", "eth1", "--", "--receive-only")
        self.assertEqual(live.ask_refused("watch eth9"), "no such port")
        self.assertEqual(live.ask_refused("watch eth1 eth9"), "no such port")
        watch = self.watched(live, "watch eth1")
        watch.until_complete()
        self.assertEqual(list(watch.tables), ["eth1"])
        for side in ("peer0", "peer1"):
            self.peer(side).send(numbered(1))
        self.assertEqual(watch.take()[0], f"live.eth1.change=came {ID}")
        watch.client.connection.sendall(b"live\n")
        self.assertRaises(Gone, watch.take)  # it did not wait

    def test_who_does_not_read_loses_changes_and_ends_with_the_right_tables(self) -> None:
        live, peer = self.with_room(), self.peer("peer0")
        slow, quick = self.watched(live), self.folder / "quick"
        slow.until_complete()
        with quick.open("wb") as file:
            child = subprocess.Popen([CTL, "--control", live.control, "watch"],
                                     stdout=file, stderr=file)
        self.addCleanup(child.wait)
        self.addCleanup(child.kill)
        self.assertTrue(eventually(lambda: "no neighbors" in quick.read_text()))
        self.sends(live, peer, range(OF_PORT))
        self.assertTrue(eventually(lambda: quick.read_text().count(" eth0 came: ") == OF_PORT))
        self.sends(live, peer, range(OF_PORT, MANY))
        is_gone = lambda: peer.send(numbered(3, 0)) or live.neighbors() == OF_PORT - 1
        self.assertTrue(eventually(is_gone))
        self.ends_right(slow, live)
        self.assertGreater(slow.lost, 0)
        self.assertTrue(eventually(lambda: " eth0 gone: " in quick.read_text()))
        text = quick.read_text()
        self.assertEqual(text.count(" eth0 came: "), OF_PORT)
        self.assertGreaterEqual(text.count(" eth0 changed: "), OF_PORT - 1)

    def with_room(self) -> Live:
        return self.live("eth0", "--", "--receive-only", "--max-neighbors", "128")

    def sends(self, live: Live, peer: Peer, steps: range) -> None:
        """Sends changes in parts that all arrive."""
        for step in steps:
            peer.send(large(step % OF_PORT, step))
            if step % 100 == 99:
                line = f"lldp.eth0.{step % OF_PORT + 1}.unknown.9={step % 256:02x}"
                self.assertTrue(eventually(lambda: line in live.ask("show neighbors")))

    def test_clients_that_never_read_cost_little_and_keep_nobody_waiting(self) -> None:
        live, peer = self.with_room(), self.peer("peer0")
        before = live.resident()
        watches = [self.watched(live) for _ in range(MOST_WATCHING)]
        self.assertTrue(eventually(lambda: live.ask_refused("watch")))
        self.sends(live, peer, range(MANY))
        live.spend(11)  # those who ask and do not read are disconnected after 10 seconds
        self.assertLess(live.resident() - before, 16_000)
        for watch in watches[:2]:
            self.ends_right(watch, live)
        used = live.used()
        live.spend(2)
        self.assertLess(live.used() - used, 0.2)

    def test_a_client_that_reads_one_octet_after_another_is_sent_each_change(self) -> None:
        live, peer = self.live("eth0", "--", "--receive-only"), self.peer("peer0")
        slow, octets = self.watched(live), b""
        while not octets.endswith(b"live.lost=0\n"):
            octets += slow.client.connection.recv(1)
        for number in range(20):
            peer.send(numbered(number))
        self.assertTrue(eventually(lambda: live.neighbors() == 20))
        while b"live.eth0.change=came mac=02:00:00:00:00:13 " not in octets:
            octets += slow.client.connection.recv(1)
        self.assertEqual(octets.count(b"live.eth0.change=came "), 20)
        self.assertEqual(live.ask("changes"), ["live.changes=20"])

    def test_an_interface_that_goes(self) -> None:
        live = self.live("eth0", "vnet*", "--", "--receive-only")
        self.wires.add_guest("vnet1", "far1")
        live.comes_to("live.vnet1.link=up")
        self.peer("far1").send(numbered(1))
        self.assertTrue(eventually(lambda: live.neighbors("vnet1") == 1))
        watch = self.watched(live)
        watch.until_complete()
        changes = live.ask("changes")
        self.wires.remove_link("vnet1")
        self.assertEqual(watch.take(), ["lldp.vnet1.neighbors=0", "lldp.vnet1.octets=0",
                                        "lldp.vnet1.too-many=no"])
        self.assertEqual(watch.take(), ["live.lost=1"])
        self.assertNotEqual(live.ask("changes"), changes)
        self.wires.add_guest("vnet1", "far1")
        live.comes_to("live.vnet1.link=up")
        self.peer("far1").send(numbered(2))
        self.assertRegex(watch.take()[0], r"^live\.vnet1\.change=came .* ifname=p2$")

    def test_a_watch_goes_on_when_settings_are_read_again(self) -> None:
        settings = self.folder / "a.conf"
        settings.write_text("configure ports eth0 lldp status disabled\n")
        live, peer = self.live("eth0", "--config", str(settings)), self.peer("peer0")
        watch = self.watched(live)
        watch.until_complete()
        settings.write_text("configure ports eth0 lldp status rx-only\n")
        self.assertEqual(live.reload(settings).returncode, 0)
        peer.send(numbered(1))
        self.assertEqual(watch.take()[0], f"live.eth0.change=came {ID}")
        settings.write_text("configure ports eth0 lldp status disabled\n")
        self.assertEqual(live.reload(settings).returncode, 0)
        self.assertEqual(watch.take(), [f"live.eth0.change=gone {ID}"])
        self.assertEqual(live.ended(), 0)
        self.assertRaises(Gone, watch.take)

    def test_the_journal_and_a_watch_tell_the_same(self) -> None:
        live, peer = self.live("--events", "eth0", "--", "--receive-only"), self.peer("peer0")
        child = subprocess.Popen([CTL, "--control", live.control, "watch"], text=True,
                                 stdout=subprocess.PIPE)
        self.addCleanup(child.communicate)
        self.addCleanup(child.kill)
        assert child.stdout is not None
        self.assertEqual(child.stdout.readline(), "no neighbors on 1 port.\n")
        for frame in (numbered(1, 120, tlv(127, b"\x00\x80\xc2\x01\x00\x78")),
                      numbered(1, 60, tlv(127, b"\x00\x80\xc2\x01\x00\x79"), tlv(5, b"a\xc3\xa9")),
                      numbered(1, 0)):
            peer.send(frame)
            line = child.stdout.readline().split(" ", 1)[1]
            self.assertTrue(live.says(f"lldpa-live: {line}"), line)


if __name__ == "__main__":
    unittest.main()
