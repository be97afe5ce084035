"""Tests how long a file of the log lasts, as docs/OPERATORS.md says."""

import time
import unittest
from typing import List

from patience import by_the_clock, eventually
from running_live import OnLinks
from served import numbered, tlv

FRAME = numbered(1, 120, tlv(5, b"switch-2.example.net"), tlv(6, b"x" * 80))
FRAMES = 10
QUIET = 12  # seconds, in which the first lines of a session end


class Growth(OnLinks):
    def logged(self, count: int) -> int:
        """Waits until the log has so many frames. Returns its octets."""
        def text() -> str:
            return "".join(path.read_text() for path in self.log.iterdir())
        self.assertTrue(eventually(lambda: text().count("\nrx ") == count))
        return len(text())

    @by_the_clock
    def test_a_file_lasts_70_days_with_one_neighbor_and_35_hours_with_48(self) -> None:
        self.assertEqual(len(FRAME), 138)
        live, peer = self.receiving()
        self.record(live)
        sizes: List[int] = []
        for count in range(1, FRAMES + 1):
            time.sleep(QUIET if sizes else 0)
            peer.send(FRAME)
            sizes.append(self.logged(count))
            if count > 2 and sizes[-1] - sizes[-2] == 316:
                break  # a frame that comes as a second ends adds two lines more
        each = min(now - then for now, then in zip(sizes[2:], sizes[1:]))
        self.assertEqual(each, 316)
        seconds = 64 * 1_000_000 / each * 30  # until a file is full
        self.assertEqual(round(seconds / 86400), 70)
        self.assertEqual(round(seconds / 3600 / 48), 35)


if __name__ == "__main__":
    unittest.main()
