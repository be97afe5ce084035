"""Tests a flood of ever-new names with short times to live: what it cannot do, and what it can."""

import time

from patience import eventually
from running_live import OnLinks
from served import frame, numbered
from wires import flood

WITHOUT_END = 1_000_000_000
LOOKS = 40  # one a second
HELD, NEW = 90, 100  # numbers of neighbors; NEW is the first of several
TTL = 20
# strangers whose names come again only after the time to live of two seconds
STRANGERS = [frame(b"\x07%d" % number, b"\x07a", 2) for number in range(20_000)]


class ShortLives(OnLinks):
    def test_a_held_neighbor_stays_and_a_new_one_may_be_kept_out(self) -> None:
        live, peer = self.live("eth0", "--", "--receive-only"), self.peer("peer0")
        peer.send(numbered(HELD, TTL))
        self.assertTrue(eventually(lambda: live.neighbors("eth0")))
        sender = flood(self.wires, "peer0", STRANGERS, WITHOUT_END)
        self.addCleanup(sender.wait)
        self.addCleanup(sender.kill)
        missing = {HELD: 0, NEW: 0}
        for look in range(LOOKS):
            if look % 5 == 0:
                peer.send(numbered(HELD, TTL))
            peer.send(numbered(NEW + look, TTL))  # another one each time
            time.sleep(1)
            lines = live.ask("show neighbors eth0")
            for what, number in (HELD, HELD), (NEW, NEW + look):
                is_there = any(line.endswith(f"port.ifname=p{number}") for line in lines)
                missing[what] += 0 if is_there else 1
        print(f"missing at {LOOKS} looks: the held neighbor at {missing[HELD]}, "
              f"a new one at {missing[NEW]}")
        self.assertIsNone(sender.poll())
        self.assertEqual(missing[HELD], 0)
        self.assertGreater(missing[NEW], LOOKS // 4)
