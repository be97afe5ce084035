"""For tests: an lldpa-live with neighbors that must stay while another agent takes over."""

import socket
import subprocess
import time
from typing import Optional

from lldpa import Neighbor, read_show
from patience import eventually
from running_live import Live, OnLinks
from served import numbered, tlv
from wires import tlvs_of

LONG = 600  # a time to live that outlasts these tests


def address_in(octets: bytes) -> Optional[str]:
    """Returns the IPv4 management address that a frame announces."""
    for kind, body in tlvs_of(octets):
        if kind == 8 and body[:2] == b"\5\1":
            return socket.inet_ntoa(body[2:6])
    return None


class Replaced(OnLinks):
    """Tests on two links with neighbors that must stay."""

    links = 2

    def setUp(self) -> None:
        super().setUp()
        self.folder.chmod(0o777)
        self.peers = [self.peer("peer0"), self.peer("peer1")]

    def can_make(self, name: str, *words: str) -> bool:
        """Makes an interface. Returns whether the kernel supports this kind of interface."""
        command = ["ip", "-n", self.wires.here, "link", "add", "name", name, *words]
        return subprocess.run(command, check=False, capture_output=True).returncode == 0

    def begun(self, *words: str) -> Live:
        """Starts an lldpa-live with a log. Adds four neighbors, three in different seconds."""
        live = self.recorded("--events", *words, "eth0", "eth1")
        for number in (3, 1, 2):
            self.peers[0].send(numbered(number, LONG + number, tlv(5, b"sw%d" % number)))
            self.assertTrue(eventually(lambda: f"came: sw{number}" in live.errors()))
            told = live.number("seconds")
            # pylint: disable-next=cell-var-from-loop
            self.assertTrue(eventually(lambda: live.number("seconds") > told))
        self.peers[1].send(numbered(9, LONG))
        self.assertTrue(eventually(lambda: live.neighbors("eth1") == 1))
        return live

    def neighbors(self, live: Live) -> list[Neighbor]:
        """Returns the neighbors that `show neighbors` prints."""
        return read_show(live.ask("show neighbors")).neighbors

    def stays(self, before: list[Neighbor], began: float, live: Live) -> None:
        """Checks that all neighbors are still present, and that their times to live have run on."""
        after, went = self.neighbors(live), time.monotonic() - began
        self.assertEqual([(one.port, one.place, one.id, one.said) for one in after],
                         [(one.port, one.place, one.id, one.said) for one in before])
        for old, new in zip(before, after):
            self.assertAlmostEqual(old.expires - new.expires, went, delta=2)

    def hears_address(self, address: Optional[str], peer: int = 0, seconds: float = 8) -> bool:
        """True if a peer receives this address in time. Fails if a shutdown frame comes first."""
        last = time.monotonic() + seconds
        while (left := last - time.monotonic()) > 0:
            octets = self.peers[peer].hears(left)
            if octets is not None:
                self.assertNotIn(tlv(3, b"\0\0"), octets)
                if address_in(octets) == address:
                    return True
        return False
