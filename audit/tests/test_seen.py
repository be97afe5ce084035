"""Tests how the output of `show neighbors` is read: the names, and the faults of damaged output."""
import random
import re
import unittest

from lldpa.agent.show import Counters, Neighbor, ShowFault, read_show
from lldpa_audit.names import NAMELESS, Seen
from lldpa_audit.seen.shows import FURTHER, read_ports, seen_neighbor

SHOW = """\
lldp.ge-0/0/1.neighbors=2
lldp.ge-0/0/1.octets=200
lldp.ge-0/0/1.too-many=yes
lldp.ge-0/0/1.1.chassis.mac=02:00:5e:00:53:02
lldp.ge-0/0/1.1.port.mac=02:00:5e:00:53:03
lldp.ge-0/0/1.1.ttl=120
lldp.ge-0/0/1.1.expires=7
lldp.ge-0/0/1.1.chassis.mgmt=192.0.2.2,2,2,
lldp.ge-0/0/1.1.chassis.name=caf\\xc3\\xa9\\\\
lldp.ge-0/0/1.1.chassis.mgmt=fe80:0000:0000:0000:0000:5eff:fe00:5302,2,2,
lldp.ge-0/0/1.1.port.descr=swp1
lldp.ge-0/0/1.1.org.00120f.1=0080000036
lldp.ge-0/0/1.1.unknown.9=00
lldp.ge-0/0/1.2.chassis.local=a.neighbors=1
lldp.ge-0/0/1.2.port.ifname=eth0
lldp.ge-0/0/1.2.ttl=120
lldp.ge-0/0/1.2.expires=7
lldp.ge-0/0/1.2.port.descr=
lldp.ge-0/0/1.2.chassis.name=
lldp.b.neighbors=0
lldp.b.octets=0
lldp.b.too-many=no
lldp.c.neighbors=1
lldp.c.octets=30
lldp.c.too-many=no
lldp.c.1.chassis.ip=192.0.2.9
lldp.c.1.port.ifname=eth1
lldp.c.1.ttl=120
lldp.c.1.expires=7
lldp.c.1.port.descr=uplink = 7
"""
LAST_PORT = SHOW[SHOW.index("lldp.c."):]
COUNTERS = "".join(f"lldp.b.{name.replace('_', '-')}=0\n" for name in Counters._fields)

# pieces that replace a part of the output: marks, digits, and beginnings of lines
PIECES = ["=", ".", "\n", "1", "0", "lldp.", "b", "\\", "\x7f", "neighbors", "ttl", "lldp.c."]
DAMAGED_SHOWS = 4000


class Neighbors(unittest.TestCase):
    def test_names(self) -> None:
        ports = read_ports(SHOW)
        self.assertEqual(list(ports), ["ge-0/0/1", "b", "c"])
        first, second, nameless = ports["ge-0/0/1"]
        self.assertEqual(first.hosts, ("caf\xe9\\", "02:00:5e:00:53:02", "192.0.2.2",
                                       "fe80:0000:0000:0000:0000:5eff:fe00:5302",
                                       "fe80::5eff:fe00:5302"))
        self.assertEqual(first.ports, ("swp1", "02:00:5e:00:53:03"))
        self.assertEqual((second.hosts, second.ports), (("a.neighbors=1",), ("eth0",)))
        self.assertEqual((nameless.hosts, nameless.ports), ((), ()))
        self.assertEqual(list(ports["b"]), [])
        self.assertEqual(ports["c"][0].ports, ("eth1", "uplink = 7"))
        self.assertEqual(read_ports(SHOW + COUNTERS), ports)
        twice = "".join(f"lldp.c.1.{key}={value}\n" for value in ("first", "last")
                        for key in ("port.descr", "chassis.name"))
        last = read_ports(LAST_PORT.replace("lldp.c.1.port.descr=uplink = 7\n", twice))["c"][0]
        self.assertEqual((last.hosts[0], last.ports), ("last", ("eth1", "last")))

    def test_faults(self) -> None:
        """Checks what the fault of each damaged output says."""
        for text, said in (
                (SHOW[:-1], "its last line is incomplete: it was cut short"),
                (LAST_PORT * 2, "line 9: the port c is in it twice, first in line 1"),
                (SHOW + LAST_PORT, "line 31: the port c is in it twice, first in line 23"),
                (SHOW[:SHOW.index("lldp.c.too-many")],
                 "line 25: expected lldp.c.too-many=, but found the end"),
                (SHOW.replace("2.ttl=120", "2.ttl=x"), "line 16: expected lldp.ge-0/0/1.2.ttl= "
                 "and a number, but found 'lldp.ge-0/0/1.2.ttl=x'"),
                (SHOW.replace("neighbors=2", "neighbors=3"), "line 20: expected "
                 "lldp.ge-0/0/1.3.chassis.KIND=, but found 'lldp.b.neighbors=0'"),
                (SHOW.replace(LAST_PORT, COUNTERS + LAST_PORT), "expected shows in the order "
                 "neighbors, statistics, chassis, configuration, but found 'lldp.c.neighbors=1'")):
            with self.subTest(said), self.assertRaises(ShowFault) as raised:
                read_ports(text)
            self.assertIn(said, str(raised.exception))

    def test_numbers_of_many_digits(self) -> None:
        for key in re.findall(r"^([^=]+\.(?:neighbors|octets|ttl|expires)=)\d+$", SHOW, re.M):
            text = re.sub(rf"{re.escape(key)}\d+", key + "1" * 5000, SHOW)
            self.assertRaises(ShowFault, read_ports, text)

    def test_damaged_shows(self) -> None:
        """Checks that damaged output is refused, or read as the package lldpa reads it."""
        rng, right = random.Random(30), 0
        for number in range(DAMAGED_SHOWS):
            text = damaged(SHOW.replace("a.neighbors=1", "a"), rng)
            with self.subTest(number=number):
                try:
                    shown = read_show(text[:-1].split("\n"))
                except ShowFault:
                    self.assertRaises(ShowFault, read_ports, text)
                    continue
                self.assertEqual(read_ports(text), {port.name: (
                    *map(neighbor, port.neighbors), *[NAMELESS] * port.too_many)
                    for port in shown.ports})
                right += 1
        self.assertGreater(right, DAMAGED_SHOWS // 20)
        self.assertLess(right, DAMAGED_SHOWS * 19 // 20)


def neighbor(one: Neighbor) -> Seen:
    """Converts a neighbor that the package lldpa has read to one of lldpa_audit."""
    said = "".join(f"\nlldp.{one.port}.1.{key}={value}" for key, value in one.said)
    return seen_neighbor(one.chassis.text, one.port_id.kind, one.port_id.text,
                         FURTHER.findall(said))


def damaged(text: str, rng: random.Random) -> str:
    """Returns a text of whole lines in which a piece is removed, changed or doubled."""
    at = rng.randrange(len(text))
    end = min(len(text), at + rng.choice([0, 1, 2, 5, 30, 200]))
    line = rng.choice(text.splitlines(keepends=True))
    piece = rng.choice(["", rng.choice(PIECES), text[at:end] * 2, line])
    return (text[:at] + piece + text[end:]).rstrip("\n") + "\n"
