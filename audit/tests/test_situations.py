"""Audits situations that were once judged wrongly, took too many lines, or were refused."""
import unittest
from concurrent.futures import ThreadPoolExecutor

import dated
import identities
import judged
import list_points
import situations
from auditing import audited


class Situations(unittest.TestCase):
    def test_each(self) -> None:
        rows = [*situations.ROWS, *list_points.ROWS, *judged.ROWS, *identities.ROWS,
                *dated.ROWS]
        with ThreadPoolExecutor() as pool:
            for row, found in zip(rows, pool.map(audited, rows)):
                with self.subTest(name=row.name):
                    self.assertEqual(found, (row.status, [*row.lines]))
