"""Tests what a client that watches costs whose lldpa-live was taken over: at most 100 MB. It ends
as soon as it is sent what no lldpa-live sends."""

import os
import socket
import threading
import unittest
from contextlib import suppress
from itertools import chain, count, repeat
from typing import Callable, Iterable, List, Sequence

from served import CTL, counted
from test_evil import MOST_MEMORY, Cost, Evil, settings

Messages = Callable[[], Iterable[bytes]]
LOST = counted([b"live.lost=0"])
LIVE = [b"live.agent=running"]
SETTINGS = [line.strip() for line in settings()]
MANY = 20_000_000  # octets
OF_LOSSES = 20_000  # kB of memory
LONG = [b"unknown.9=" + b"0" * 500] * 16  # what a neighbor says in 8 kB
SHORT = [b"unknown.9=00"] * 740


def neighbor(number: int, said: Sequence[bytes]) -> List[bytes]:
    return [b"chassis.local=%d" % number, b"port.local=1", b"ttl=120", b"expires=100", *said]


def table(port: bytes, neighbors: int = 1, said: Sequence[bytes] = ()) -> bytes:
    """Returns the table of a port whose neighbors all say the same."""
    front = b"lldp.%b." % port
    lines = [front + line for line in (b"neighbors=%d" % neighbors, b"octets=1", b"too-many=no")]
    for place in range(1, neighbors + 1):
        lines += [front + b"%d." % place + line for line in neighbor(place, said)]
    return counted(lines)


def came(port: bytes, number: int = 1, said: Sequence[bytes] = ()) -> bytes:
    front = b"lldp.%b.1." % port
    return counted([b"live.%b.change=came local=%d local=1" % (port, number),
                    *[front + line for line in neighbor(number, said)]])


ENDS: "dict[str, Messages]" = {  # why a client ends
    "a port twice, or more than 64 ports": lambda: repeat(table(b"eth0") * 100),
    ": a port twice, or more than 64 ports": lambda: (table(b"p%d" % one, 0) for one in count()),
    "129 neighbors of one port": lambda: [table(b"eth0", 129)],
    "257 neighbors of one port": lambda: chain([LOST], (came(b"eth0", one) for one in count())),
    "129 ports with neighbors": lambda: chain([LOST], (came(b"p%d" % one) for one in count())),
    "a table of more than 5 MB": lambda: [table(b"eth0", 128, [b"unknown.9=" + b"0" * 7000] * 7)],
    ": a table of more than 5 MB": lambda: [LOST, came(b"eth0", 1, LONG * 800)],
    "a neighbor that says 751 lines": lambda: [LOST, came(b"eth0", 1, [b"unknown.9="] * 751)],
    ": a neighbor that says 751 lines": lambda: [table(b"eth0", 1, [b"unknown.9="] * 751)],
    "a line of more than 8 kB": lambda: [LOST, counted([b"0" * 4_000_000])],
    "a change before the tables": lambda: [came(b"eth0")],
    "expected a neighbor of 'a.b'": lambda: [LOST, came(b"a.b")],
    "expected a neighbor of 'a b'": lambda: [LOST, came(b"a b")],
    "expected a neighbor of ''": lambda: [LOST, came(b"")],
}


class Watching(Evil):
    def streams(self, messages: Messages) -> str:
        """Returns the path of a socket of a service that sends these to a client that watches."""
        path = str(self.folder / f"control-{len(os.listdir(self.folder))}")
        self.folder.chmod(0o755)
        listening = socket.socket(socket.AF_UNIX)
        self.addCleanup(listening.close)
        listening.bind(path)
        os.chmod(path, 0o666)
        listening.listen()

        def serve() -> None:
            connection, _ = listening.accept()
            with connection, suppress(OSError), connection.makefile("rb") as lines:
                for line in lines:
                    if line.startswith(b"watch"):
                        for message in messages():
                            connection.sendall(message)
                        return
                    connection.sendall(counted(LIVE if line == b"live\n" else SETTINGS))
        threading.Thread(target=serve, daemon=True).start()
        return path

    def watched(self, messages: Messages, *words: str) -> Cost:
        cost = self.cost(CTL, "--control", self.streams(messages), *(words or ["watch"]))
        self.assertEqual(cost.status, 1)
        self.assertLess(cost.memory, MOST_MEMORY)
        return cost

    def test_it_ends_with_what_no_lldpa_live_sends(self) -> None:
        for why, messages in ENDS.items():
            for words in (["watch"], ["--json", "watch"]):
                with self.subTest(why=why, words=words):
                    cost = self.watched(messages, *words)
                    self.assertIn(why, cost.said)
                    self.assertLess(cost.memory, MOST_MEMORY / 2)

    def test_only_ports_that_it_asked_for(self) -> None:
        port, other = b"interface-00000", b"interface-00001"
        gone = counted([b"live.%b.change=gone a b" % other])
        for messages in (lambda: [table(other)], lambda: [LOST, came(other)],
                         lambda: [table(port), LOST, gone]):
            said = self.watched(messages, "watch", port.decode()).said
            self.assertIn("'interface-00001' was not asked for", said)

    def test_the_largest_tables_and_changes_of_all_neighbors_of_a_port(self) -> None:
        ports = [b"interface-%05d" % number for number in range(36)]
        tables = [table(port, 128, LONG) for port in ports]
        messages = [*tables, LOST, table(ports[0], 128, SHORT), LOST]
        for words in (["watch"], ["--json", "watch"]):
            cost = self.watched(lambda: messages, *words)
            self.assertIn("lldpa-live has ended the connection", cost.said)
            self.assertGreater(cost.octets, MANY // 20)

    def test_losses_without_end_take_no_memory(self) -> None:
        losses = LOST * 1000
        cost = self.watched(lambda: [losses] * (MANY // len(losses)))
        self.assertIn("lldpa-live has ended the connection", cost.said)
        self.assertLess(cost.memory, OF_LOSSES)


if __name__ == "__main__":
    unittest.main()
