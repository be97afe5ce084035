"""Tests what clients cost that never read, if each of them asks at another moment."""

import socket
import time

from loads import figure
from patience import eventually
from running_live import OnLinks
from served import numbered, tlv
from test_load_tables import MOST_OF_READERS, PORTS, READERS

TEXT = 60  # octets: LLDPDUs that are small beside what lldpa-live keeps about each


class Readers(OnLinks):
    """Tests 8,192 neighbors with small LLDPDUs, whose tables change between two questions."""

    links = PORTS

    def test_small_neighbors_count_with_all_that_is_kept_of_them(self) -> None:
        self.folder.chmod(0o777)
        names = [f"eth{number}" for number in range(PORTS)]
        live = self.live(*names, "--", "--receive-only", "--max-neighbors", "128")
        peers = [self.peer(f"peer{number}") for number in range(PORTS)]
        for number in range(128):
            for peer in peers:
                peer.send(numbered(number, 600, tlv(5, bytes([97]) * TEXT)))
            time.sleep(0.005)
        self.assertTrue(eventually(lambda: sum(
            ".since." in line for line in live.ask("live")) == PORTS * 128))
        before = live.resident()
        for number in range(READERS):
            client = socket.socket(socket.AF_UNIX)
            self.addCleanup(client.close)
            client.connect(live.control)
            client.sendall(b"live\n")
            peers[0].send(numbered(1, 600, tlv(5, b"%d" % number)))  # the tables are others now
            live.ask("show chassis")
        most = live.resident("VmHWM") - before
        figure(self, f"{READERS} readers cost at most {most / 1024:.1f} MB more than "
                     f"{before / 1024:.1f} MB")
        self.assertLess(most, MOST_OF_READERS)
        self.assertEqual(live.told("show neighbors eth0", "lldp.eth0.neighbors"), "128")
