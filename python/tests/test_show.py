"""Tests that the output of show commands is read, and that the same lines can be written again."""

import subprocess
import sys
import unittest
from typing import Iterator, List

from lldpa.agent.framing import MARK, MARK_ANSWER
from lldpa.agent.show import Identifier, Neighbor, Show, lines_of, read_show, unescaped
from lldpa.agent.shown import capabilities_in
from served import PROGRAM, REPOSITORY
from shown_lines import (ALL, CHASSIS, CONFIGURATION, COUNTS, NEIGHBORS, NUMBERS, STATISTICS,
                         STATUSES)

sys.path[1:1] = [str(REPOSITORY / "tools" / folder) for folder in ("model", "gate")]
import fuzz  # type: ignore[import-not-found]  # noqa: E402
from examples import transcripts  # type: ignore[import-not-found]  # noqa: E402
from model import SHOWS  # type: ignore[import-not-found]  # noqa: E402

RANDOM_SHOWS = 1000


def shows_of_transcript(name: str) -> Iterator[List[str]]:
    """Yields the output of each show command in a transcript, and of every kind at its end."""
    (_, words, _, trace, steps), = transcripts([name])
    assert not isinstance(steps, str), steps
    lines = [line for line, _ in steps] + [b"show " + show.encode() for show in SHOWS]
    marked = b"".join(line + b"\n" + MARK + b"\n" for line in lines)
    done = subprocess.run([PROGRAM, *words], input=marked, capture_output=True, check=True)
    for answer in done.stdout.decode("ascii").split(MARK_ANSWER.decode("ascii") + "\n"):
        if answer.startswith(("lldp.", "local-chassis.", "configuration.")):
            yield answer.splitlines()


def random_show(seed: int) -> List[str]:
    """Returns the shows at the end of a random trace, or nothing if its options are refused."""
    dice = fuzz.Dice(seed)
    words, lines = fuzz.new_trace(dice)
    lines[-3:-3] = [MARK]
    done = subprocess.run([PROGRAM, *words], input=b"\n".join(lines) + b"\n", capture_output=True,
                          check=False)
    _, mark, shown = done.stdout.rpartition(MARK_ANSWER + b"\n")
    return shown.decode("ascii").splitlines() if mark and done.returncode == 0 else []


class ThereAndBack(unittest.TestCase):
    """Tests that lines that are read as a show are written as the same lines."""

    def test_each_show_of_the_transcripts(self) -> None:
        count = neighbors = 0
        for path in sorted((REPOSITORY / "examples").glob("*.args")):
            for lines in shows_of_transcript(path.stem):
                with self.subTest(path.name, show=lines[0]):
                    show = read_show(lines)
                    self.assertEqual(lines_of(show), lines)
                    neighbors += len(show.neighbors)
                    count += 1
        self.assertGreater(count, 200)
        self.assertGreater(neighbors, 30)

    def test_random_shows(self) -> None:
        count = neighbors = 0
        for seed in range(100_000):
            lines = random_show(seed)
            if lines:
                show = read_show(lines)
                self.assertEqual(lines_of(show), lines, f"seed {seed}")
                neighbors += len(show.neighbors)
                count += 1
            if count == RANDOM_SHOWS:
                break
        self.assertEqual(count, RANDOM_SHOWS)
        self.assertGreater(neighbors, RANDOM_SHOWS / 2)

    def test_all_shows_together_and_each_alone(self) -> None:
        for lines in (ALL, NEIGHBORS, STATISTICS, CHASSIS, CHASSIS[:4], CONFIGURATION, []):
            self.assertEqual(lines_of(read_show(lines)), lines)
            self.assertEqual(lines_of(read_show(line + "\n" for line in lines)), lines)


class WhatIsRead(unittest.TestCase):
    def test_a_neighbor(self) -> None:
        neighbor = read_show(NEIGHBORS).neighbors[0]
        self.assertEqual((neighbor.port, neighbor.place), ("eth0", 1))
        self.assertEqual(neighbor.chassis, ("mac", "00:11:22:33:44:55"))
        self.assertEqual(neighbor.port_id, ("ifname", "eth 0"))
        self.assertEqual((neighbor.ttl, neighbor.expires), (120, 119))
        self.assertEqual(neighbor.name, "caf\\xc3\\xa9 = \\\\")
        self.assertEqual(neighbor.descr, "x.y=z")
        self.assertEqual(neighbor.port_descr, "")
        self.assertEqual(neighbor.capabilities, {"Bridge": True, "Router": False})
        self.assertEqual(capabilities_in(""), {})
        self.assertEqual(neighbor.management,
                         ("192.0.2.1", "fe80:0000:0000:0000:0000:0000:0000:0001"))
        self.assertEqual(neighbor.org, (("00120f.1", "0080000036"),))
        self.assertEqual(neighbor.unknown, ((9, "00"),))

    def test_a_neighbor_that_says_little(self) -> None:
        neighbor = read_show(NEIGHBORS).neighbors[1]
        self.assertIsNone(neighbor.name)
        self.assertIsNone(neighbor.capabilities)
        self.assertEqual((neighbor.management, neighbor.org, neighbor.unknown), ((), (), ()))

    def test_a_key_that_is_not_known_is_kept(self) -> None:
        for line in ("vlan.9=00", "age=7", "chassis.names=x", "port.macs=y", "a-b.c-1.d=",
                     "orga=1"):
            number = NEIGHBORS.index("lldp.eth0.1.unknown.9=00")
            lines = NEIGHBORS[:number] + [f"lldp.eth0.1.{line}"] + NEIGHBORS[number:]
            show = read_show(lines)
            key, _, value = line.partition("=")
            self.assertIn((key, value), show.neighbors[0].said)
            self.assertEqual(lines_of(show), lines)
            self.assertEqual(show.neighbors[0].unknown, ((9, "00"),))

    def test_ports_and_counters(self) -> None:
        show = read_show(ALL)
        eth0, p1 = show.ports
        self.assertEqual((eth0.name, eth0.neighbors_held, eth0.octets, eth0.too_many),
                         ("eth0", 2, 120, True))
        self.assertEqual((p1.name, p1.too_many, p1.neighbors), ("p1", False, ()))
        self.assertEqual(show.counters["p1"].tlvs_discarded, COUNTS["tlvs_discarded"])
        self.assertEqual(show.counters["eth0"].drops, COUNTS["drops"])
        assert show.chassis is not None and show.configuration is not None
        self.assertEqual(show.chassis.mgmt, "192.0.2.1,1,0,")
        self.assertEqual(show.configuration.tx_credit_max, NUMBERS["tx_credit_max"])
        self.assertEqual(show.configuration.statuses, STATUSES)
        self.assertEqual(read_show([]), Show())

    def test_an_id_stays_and_is_of_one_neighbor_alone(self) -> None:
        def id_of(chassis: str, port: str, place: int = 1) -> str:
            parts = Identifier("local", chassis), Identifier("local", port)
            return Neighbor("eth0", place, *parts, 1, 1).id
        self.assertEqual(id_of("a", "b", 1), id_of("a", "b", 7))
        pairs = [("a", "b"), ("a b", "c"), ("a", "b c"), ("a\\\\x20b", "c"), ("a local=b", "c")]
        self.assertEqual(len({id_of(*pair) for pair in pairs}), len(pairs))
        self.assertEqual({id_of(*pair).count(" ") for pair in pairs}, {1})

    def test_octets_of_a_text(self) -> None:
        self.assertEqual(unescaped("caf\\xc3\\xa9 \\\\x41"), "café \\x41".encode())
        self.assertEqual(unescaped("\\\\\\x00"), b"\\\0")
