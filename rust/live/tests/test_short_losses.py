"""Tests links that are lost for a moment: the kernel tells a change of the carrier at most once a
second, and with --forget-on-down no old neighbor stays beside a new one."""

import subprocess
import time

from patience import SECONDS, by_the_clock, eventually
from running_live import Live, OnLinks
from served import numbered
from wires import Peer

OLD, NEW = 1, 2
TOLD = 1.5  # seconds, within which the kernel tells a change
DOWNS = (0, 0.3, 1.2)  # seconds


class ShortLosses(OnLinks):
    links = 2

    def lose(self, end: str, seconds: float) -> None:
        """Sets an end of the first link down for so long, and then up."""
        if seconds:
            self.wires.set_link(end, "down")
            time.sleep(seconds)
            self.wires.set_link(end, "up")
            return
        both = f"link set {end} down\nlink set {end} up\n"
        subprocess.run(["ip", "-n", self.wires.side(end), "-batch", "-"], text=True, check=True,
                       input=both)

    def there(self, live: Live) -> "list[int]":
        """Returns the numbers of the neighbors at eth0."""
        return [int(line.rpartition("ifname=p")[2]) for line in live.ask("live")
                if line.startswith("live.eth0.since.")]

    def speaks(self, live: Live, peer: Peer, number: int) -> bool:
        """Sends a frame, if the link is up, and returns whether the neighbor is there."""
        try:
            peer.send(numbered(number, 600))
        except OSError:
            return False
        return bool(eventually(lambda: number in self.there(live), 0.2))

    def is_replaced(self, live: Live, peer: Peer, end: str, seconds: float) -> None:
        """Lets one neighbor follow another while the link is lost. Shortly before, the link is
        lost too, so that the kernel does not tell the next loss at once."""
        self.lose(end, 0)
        self.assertTrue(eventually(lambda: self.speaks(live, peer, OLD)))
        self.lose(end, seconds)
        began = time.monotonic()
        self.assertTrue(eventually(lambda: self.speaks(live, peer, NEW)))
        self.assertTrue(eventually(lambda: OLD not in self.there(live), TOLD), seconds)
        self.assertLess(time.monotonic() - began, SECONDS)
        self.assertTrue(eventually(lambda: self.speaks(live, peer, NEW)))
        self.assertEqual(self.there(live), [NEW])

    def is_forgotten(self, end: str) -> None:
        live, peer = self.live("--forget-on-down", "--events", "eth0", "eth1"), self.peer()
        for seconds in DOWNS:
            self.is_replaced(live, peer, end, seconds)
            self.assertEqual(live.told("live", "live.eth0.link"), "up")
        said = live.errors()
        self.assertGreaterEqual(said.count("eth0: the link is down"), len(DOWNS), said)
        self.assertEqual(said.count("eth0: the link is down"), said.count("eth0: the link is up"))
        self.assertNotIn("eth1: the link is down", said)

    @by_the_clock
    def test_by_the_other_end(self) -> None:
        self.is_forgotten("peer0")

    @by_the_clock
    def test_by_this_end(self) -> None:
        self.is_forgotten("eth0")
