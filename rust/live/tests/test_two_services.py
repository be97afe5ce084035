"""Tests that a collector can read the metrics of two services from one folder. node_exporter drops
a sample whose name and labels another file has too, and one whose help or kind another file tells
otherwise."""

import re
from typing import Dict, List, Tuple

from running_live import Live, OnLinks
from served import ctl, numbered
from patience import eventually

LABEL = '{service="lldpa2"'


def read(text: str) -> Tuple[Dict[str, str], List[str]]:
    """Returns the heading of each metric of a file, and the series."""
    headings: Dict[str, str] = {}
    for line in text.splitlines():
        if line.startswith("# "):
            name = line.split(" ")[2]
            headings[name] = headings.get(name, "") + line
    series = [line.rpartition(" ")[0] for line in text.splitlines() if not line.startswith("# ")]
    return headings, series


class TwoServices(OnLinks):
    links = 2

    def setUp(self) -> None:
        super().setUp()
        self.file, self.other = self.folder / "lldpa.prom", self.folder / "lldpa2.prom"

    def publish(self, first: Live, second: Live, status: int = 0) -> None:
        """Lets clients write both files, as the timers of two services do."""
        for live, file in ((first, self.file), (second, self.other)):
            told = ctl(live.control, "metrics", "--output", str(file))
        self.assertEqual(told.returncode, status, told.stderr)
        (first_heads, ours), (second_heads, theirs) = (
            read(file.read_text()) for file in (self.file, self.other))
        self.assertEqual(len(set(ours + theirs)), len(ours + theirs))
        self.assertEqual([name for name in set(first_heads) & set(second_heads)
                          if first_heads[name] != second_heads[name]], [])
        self.assertIn("lldpa_up", set(first_heads) & set(second_heads))
        for headings, series in ((first_heads, ours), (second_heads, theirs)):
            self.assertLessEqual({re.split("[{ ]", one)[0] for one in series}, set(headings))

    def test_no_series_is_in_both_files(self) -> None:
        first = self.live("eth0", "--", "--receive-only")
        second = self.live("eth1", "--", "--receive-only")
        self.becomes_neighbor(first)
        self.peer("peer1").send(numbered(1))
        self.assertTrue(eventually(lambda: second.neighbors("eth1") == 1))
        self.publish(first, second)
        self.assertIn('lldpa_neighbors{port="eth0"} 1\n', self.file.read_text())
        self.assertIn(f'lldpa_neighbors{LABEL},port="eth1"}} 1\n', self.other.read_text())
        self.assertEqual(second.ended(), 0)
        self.publish(first, second, status=1)
        self.assertIn('lldpa_up{service="lldpa2"} 0\n', self.other.read_text())
