"""Tests the times since which lldpa-live has heard neighbors, and the numbers of chassis."""

import time
from datetime import datetime
from typing import Dict

from asking import numbers_of, since_of
from lldpa import read_show
from patience import eventually
from running_live import OnLinks
from served import frame, numbered


def id_of(number: int) -> str:
    """Returns the MSAP identifier of the neighbor with this number."""
    return f"mac=02:00:00:00:00:{number:02x} ifname=p{number}"


def seconds_of(text: str) -> int:
    """Converts a time like 2026-11-23T19:40:00Z to seconds since 1970."""
    return int(datetime.strptime(f"{text[:-1]}+0000", "%Y-%m-%dT%H:%M:%S%z").timestamp())


class OnARealLink(OnLinks):
    links = 2

    def test_lldpa_live_knows_since_when(self) -> None:
        live = self.live("eth0", "--", "--receive-only")

        def told() -> Dict[str, str]:
            return {who: when for (_, who), when in since_of(live.ask("live")).items()}
        peer = self.peer()
        before = int(time.time())
        peer.send(numbered(1, 100))
        peer.send(numbered(2, 2))
        self.assertTrue(eventually(lambda: live.neighbors() == 2))
        came = told()
        self.assertEqual(set(came), {id_of(1), id_of(2)})
        for when in came.values():
            self.assertTrue(before <= seconds_of(when) <= time.time())
        self.assertTrue(eventually(lambda: live.neighbors() == 1))
        self.assertEqual(told(), {id_of(1): came[id_of(1)]})
        peer.send(numbered(1, 100))
        peer.send(numbered(3, 100))
        self.assertTrue(eventually(lambda: live.neighbors() == 2))
        self.assertEqual(told()[id_of(1)], came[id_of(1)])
        live.ask("configure ports eth0 lldp status disabled")
        self.assertEqual(told(), {})
        self.assertEqual(numbers_of(live.ask("live")), {})

    def test_a_neighbor_is_named_as_the_agent_shows_it(self) -> None:
        live = self.live("eth0", "--", "--receive-only", "--max-neighbors", "128")
        values = [b"\0", b"a b\\\xff", b"123456", b"\1\xc0\0\2\1", b"\2abcd",
                  b"\2" + bytes(range(16)), b"\1" + bytes(16), b"x" * 255]
        peer = self.peer()
        for kind in (*range(10), 255):
            for sent in (frame(bytes([kind]) + value, b"\x05p", 600) for value in values):
                peer.send(sent)
        self.assertTrue(eventually(lambda: live.neighbors() == 11 * len(values)))
        self.assertEqual([one.id for one in read_show(live.ask("show neighbors")).neighbors],
                         [who for _, who in since_of(live.ask("live"))])

    def test_each_chassis_has_a_number(self) -> None:
        live, peers = self.live("eth0", "eth1"), [self.peer("peer0"), self.peer("peer1")]

        def has(wanted: Dict[str, int]) -> bool:
            return bool(eventually(lambda: numbers_of(live.ask("live")) == wanted))
        one, two = "mac=02:00:00:00:00:01", "mac=02:00:00:00:00:02"
        for peer, number in ((0, 1), (0, 2), (1, 1)):
            peers[peer].send(numbered(number))
        self.assertTrue(has({one: 1, two: 2}))
        peers[0].send(numbered(1, 0))  # it leaves one of its ports
        peers[0].send(numbered(1))
        self.assertTrue(has({one: 1, two: 2}))
        for peer in peers:
            peer.send(numbered(1, 0))
        self.assertTrue(has({two: 2}))
        peers[1].send(numbered(1))  # and comes again
        self.assertTrue(has({two: 2, one: 3}))
        peers[0].send(numbered(1))
        self.assertTrue(eventually(lambda: live.neighbors() == 2))
        live.ask("configure ports eth0 lldp status disabled")
        self.assertTrue(has({one: 3}))
