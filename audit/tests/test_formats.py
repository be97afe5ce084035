"""Tests that the audit reads the three formats at which it meets the agent, as they were recorded.

python/tests/test_audit_formats.py compares what the agent writes with the same files.
"""
import json
import re
import unittest
from pathlib import Path
from typing import Any

from lldpa_audit.names import NAMELESS, Seen
from lldpa_audit.seen.forms import read_list

AGENT = Path(__file__).parent / "samples" / "agent"
ADDRESSES = ("10.0.0.1", "2001:0db8:0000:0000:0000:0000:0000:0001")
FIRST = Seen(("leaf1", "02:00:00:00:00:01", *ADDRESSES, "2001:db8::1"), ("swp1", "uplink, caf\u00e9"),
             "02:00:00:00:00:01", "swp1", True, True)
WANTED = {
    "eth0": [FIRST],
    "eth1": [Seen(("srv\udcff1", "serial \\7\n"), ("eth3", "02:00:00:00:00:09"), "serial \\7\n",
                  "02:00:00:00:00:09")],
    "eth2": [Seen(("one", "02:00:00:00:00:02"), ("p1",), "02:00:00:00:00:02", "p1", False, True),
             Seen(("02:00:00:00:00:03",), ("p2",), "02:00:00:00:00:03", "p2"), NAMELESS]}


class Formats(unittest.TestCase):
    def read(self, octets: bytes, host: str = "") -> Any:
        listing = read_list(octets)
        self.assertFalse(listing.has_all_heard)
        return {port: [*some] for port, some in listing.ports.items()}

    def test_show(self) -> None:
        self.assertEqual(self.read((AGENT / "show").read_bytes()), WANTED)

    def test_json(self) -> None:
        found = self.read((AGENT / "neighbors.json").read_bytes())
        text = re.compile(r"\\x([0-9a-f]{2})")
        self.assertEqual(found["eth0"], WANTED["eth0"])
        self.assertEqual(found["eth2"], WANTED["eth2"])
        self.assertEqual([text.sub("?", name) for name in found["eth1"][0].hosts],
                         ["srv?1", "serial \\7\n"])

    def test_metrics(self) -> None:
        """Reads the metrics as Prometheus answers them. They have one address, and no TLVs."""
        series = []
        for line in (AGENT / "metrics").read_text().splitlines():
            found = re.fullmatch(r"(lldpa_neighbor_info|lldpa_too_many)\{(.*)\} (\d)", line)
            if found:
                labels = {name: json.loads(f'"{text}"') for name, text in re.findall(
                    r'(\w+)="((?:[^"\\]|\\.)*)"', found[2])}
                series.append({"metric": {"__name__": found[1], "instance": "h:1", **labels},
                               "value": [0, found[3]]})
        tree = {"data": {"resultType": "vector", "result": series}}
        listing = read_list(json.dumps(tree).encode()).hosts["h"]
        found = {port: sorted(some, key=lambda one: one is NAMELESS)
                 for port, some in listing.ports.items()}
        first = FIRST._replace(hosts=FIRST.hosts[:3], aggregated=False)
        self.assertEqual(found, {**WANTED, "eth0": [first]})
