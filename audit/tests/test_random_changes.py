"""Compares what --since finds between random networks at two times with what has changed there.

LLDPA_SEED is the first seed, and LLDPA_CHANGES the number of pairs.
To try more of them by hand, run audit/tools/try-random.py.
"""
import os
import unittest
from collections import Counter
from typing import Set

from lldpa_audit.changes import Changes, compared
from lldpa_audit.names import End, Names
from lldpa_audit.report.changed import json_of, lines_of
from lldpa_audit.seen.forms import read_list
from lldpa_audit.seen.tables import Tables
from random_changes import Time, TwoTimes

SEED = int(os.environ.get("LLDPA_SEED", "1"))
PAIRS = int(os.environ.get("LLDPA_CHANGES", "1000"))


def tables_of(time: Time) -> Tables:
    tables = Tables(Names())
    for host, text in time.lists().items():
        tables.add_ports(host, read_list(text.encode()).ports, host, True)
    tables.names = Names().with_planned(tables.ends)
    return tables


class RandomChanges(unittest.TestCase):
    def test_each_change(self) -> None:
        """Checks that each end that hears something else is in a change, and that each change has
        such an end."""
        kinds: Counter[str] = Counter()
        for seed in range(SEED, SEED + PAIRS):
            with self.subTest(seed=seed):
                case = TwoTimes(seed)
                found = compared(tables_of(case.before), tables_of(case.now))
                self.assertTrue([*lines_of(found)] and "".join(json_of(found)))
                self.compare(found, case.differing())
                if case.before.hosts == case.now.hosts:
                    self.assertEqual(found.not_compared, 0)
                kinds.update(one.kind for one in found.changes)
                kinds["none"] += not found.changes
                kinds["not compared"] += found.not_compared > 0
        for kind in ("moved", "renamed", "came", "went", "none", "not compared"):
            self.assertGreater(kinds[kind], PAIRS // 20, kinds)
        self.assertEqual(kinds["replaced"] > 0, PAIRS >= 1000, kinds)

    def compare(self, found: Changes, differing: Set[End]) -> None:
        told = {end for change in found.changes for links in (change.before, change.now)
                for ends in links for end in ends}
        self.assertEqual(differing - told, set(), found)
        for change in found.changes:
            for ends in (*change.before, *change.now):
                self.assertTrue(differing & {*ends}, change)
