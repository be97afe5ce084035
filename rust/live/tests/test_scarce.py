"""Tests want of memory."""

import resource
import time

from patience import eventually
from replaced import LONG, Replaced
from running_live import Live
from served import numbered, tlv
from wires import ip

PAGE = 4096


class Memory(Replaced):
    """Tests an agent that cannot be replaced, since there is no memory for another one."""

    links = 8

    def setUp(self) -> None:
        super().setUp()
        self.peers = [self.peer(f"peer{number}") for number in range(self.links)]

    def full(self) -> Live:
        """Fills all tables. (A process without CAP_SYS_RESOURCE may limit its own user's alone.)"""
        ports = [f"eth{number}" for number in range(self.links)]
        live = self.live("--user", "root", "--events", *ports, "--", "--max-neighbors", "128")
        for number in range(128):
            for peer in self.peers:
                peer.send(numbered(number, LONG, *(tlv(127, b"\0\1\2" + bytes([kind]) + bytes(250))
                                                   for kind in range(5))))
            time.sleep(0.005)
        self.assertTrue(eventually(lambda: live.neighbors(ports[-1]) == 128))
        return live

    def test_the_old_one_stays_and_another_is_tried_later(self) -> None:
        live = self.full()
        size = self.size(live)
        limit = (size + 64 * PAGE, resource.RLIM_INFINITY)
        resource.prlimit(live.process.pid, resource.RLIMIT_AS, limit)
        ip("-n", self.wires.here, "address", "add", "192.0.2.7/24", "dev", "eth0")
        self.assertTrue(live.says("lldpa-live tries again"), live.errors()[-500:])
        unlimited = (resource.RLIM_INFINITY, resource.RLIM_INFINITY)
        resource.prlimit(live.process.pid, resource.RLIMIT_AS, unlimited)
        self.assertIsNone(live.process.poll())
        self.assertEqual(live.told("show neighbors eth5", "lldp.eth5.neighbors"), "128")
        self.assertFalse(any("mgmt" in line for line in live.ask("show chassis")))
        self.peers[0].send(numbered(5, 0))
        self.assertTrue(eventually(lambda: live.told(
            "show neighbors eth0", "lldp.eth0.neighbors") == "127"))
        live.comes_to("local-chassis.mgmt=192.0.2.7,1,0,", "show chassis")
        self.assertEqual(live.told("show neighbors eth5", "lldp.eth5.neighbors"), "128")
        self.assertNotIn("gone", live.errors().split("tries again")[1])

    def size(self, live: Live) -> int:
        with open(f"/proc/{live.process.pid}/statm", encoding="ascii") as file:
            return int(file.read().split()[0]) * PAGE
