"""Tests that lines which cannot belong to a show are refused."""

import unittest
from typing import List, Tuple

from lldpa.agent.show import ShowFault, read_show
from shown_lines import ALL, CONFIGURATION, COUNTS, NEIGHBORS, STATISTICS


class Refused(unittest.TestCase):
    """Tests that a line that cannot belong to a show is reported with its number and text."""

    def changed(self, old: str, new: List[str]) -> Tuple[int, List[str]]:
        """Returns the number of a line of `ALL`, and the lines of `ALL` with `new` in its place."""
        place = ALL.index(old)
        return place + 1, ALL[:place] + new + ALL[place + 1:]

    def test_lines_out_of_place(self) -> None:
        changes = [
            ("lldp.eth0.octets=120", ["lldp.eth0.octets=0120"]),
            ("lldp.eth0.octets=120", [f"lldp.eth0.octets={10**19}"]),  # the first of 20 digits
            ("lldp.eth0.octets=120", ["lldp.eth1.octets=120"]),
            ("lldp.eth0.too-many=yes", ["lldp.eth0.too-many=maybe"]),
            ("lldp.eth0.1.ttl=120", []),
            ("lldp.eth0.1.ttl=120", ["lldp.eth0.1.ttl=-1"]),
            ("lldp.eth0.1.chassis.mac=00:11:22:33:44:55", ["lldp.eth0.1.chassis.name=x"]),
            ("lldp.eth0.1.org.00120f.1=0080000036", ["lldp.eth0.1.org.00120F.1=00"]),
            ("lldp.eth0.1.unknown.9=00", ["lldp.eth0.1.unknown.x=00"]),
            ("lldp.eth0.1.unknown.9=00", ["lldp.eth0.1.unknown=00"]),
            ("lldp.eth0.1.unknown.9=00", ["lldp.eth0.1.ttl=00"]),
            ("lldp.eth0.1.unknown.9=00", ["lldp.eth0.1.chassis.mac=00"]),
            ("lldp.eth0.1.unknown.9=00", ["lldp.eth0.1.=00"]),
            ("lldp.eth0.1.unknown.9=00", ["tx eth0 00"]),
            ("lldp.eth0.1.unknown.9=00", ["error: unknown command"]),
            ("lldp.eth0.2.chassis.local=a b", ["lldp.eth0.3.chassis.local=a b"]),
            ("lldp.eth0.2.chassis.local=a b", ["lldp.eth0.2.chassis.local"]),
            ("lldp.eth0.2.chassis.local=a b", ["lldp.eth0.2.chassis.local=\x1b[2J"]),
            ("lldp.eth0.2.chassis.local=a b", ["lldp.eth0.2.chassis.local=caf\u00e9"]),
            ("lldp.p1.neighbors=0", ["lldp.eth0.neighbors=0"]),
            ("lldp.p1.sent=0", ["lldp.eth0.sent=0"]),
            (STATISTICS[-1], [STATISTICS[-1].replace("=", "x=")]),
            ("local-chassis.name=localhost", []),
            ("configuration.ports=2", ["configuration.ports=x"]),
        ]
        for old, new in changes:
            number, lines = self.changed(old, new)
            with self.subTest(old, new=new), self.assertRaises(ShowFault) as fault:
                read_show(lines)
            told = str(fault.exception)
            self.assertTrue(told.startswith(f"line {number}: "), told)
            self.assertIn(repr(lines[number - 1]), told)

    def test_a_status_too_many_and_too_few(self) -> None:
        for lines in (CONFIGURATION[:-1], CONFIGURATION + ["configuration.p2.status=rx-only"]):
            with self.assertRaises(ShowFault):
                read_show(lines)

    def test_an_end_in_the_middle(self) -> None:
        statistics, chassis = len(NEIGHBORS), len(NEIGHBORS + STATISTICS)
        whole = {0, 19, statistics, statistics + len(COUNTS), chassis, chassis + 4, chassis + 5}
        for end in set(range(len(ALL))) - whole:
            with self.subTest(end=end), self.assertRaises(ShowFault) as fault:
                read_show(ALL[:end])
            self.assertIn("the end", str(fault.exception))
