"""Tests that the shows of an older or a newer agent are read."""

import unittest
from collections import namedtuple
from typing import NamedTuple
from unittest import mock

from lldpa.agent.show import Configuration, ShowFault, lines_of, read_show
from shown_lines import CONFIGURATION, COUNTS, NUMBERS, STATISTICS, STATUSES

# the settings of a later version, which has one more
NewerConfiguration = namedtuple("NewerConfiguration", [*Configuration._fields, "further"],
                                defaults=[*Configuration._field_defaults.values(), 0])


class NewerCounters(NamedTuple):
    """The counters of a later version, which has one more."""
    sent: int
    shutdowns: int
    received: int
    discarded: int
    errors: int
    tlvs_discarded: int
    unrecognized: int
    ageouts: int
    drops: int
    early_frames: int = 0


class OtherVersions(unittest.TestCase):
    def test_counters_of_a_newer_agent_are_skipped(self) -> None:
        end = len(COUNTS)
        newer = [*STATISTICS[:end], "lldp.eth0.early-frames=3", *STATISTICS[end:], "lldp.p1.x=0"]
        self.assertEqual(read_show(newer), read_show(STATISTICS))
        for wrong in ("lldp.eth1.early=3", "lldp.eth0.early=x", "lldp.eth0.sent=0", "eth0.early=3"):
            with self.subTest(wrong), self.assertRaises(ShowFault) as fault:
                read_show([*STATISTICS[:end], wrong, *STATISTICS[end:]])
            self.assertIn(repr(wrong), str(fault.exception))

    def test_a_counter_with_a_default_may_be_missing_at_an_older_agent(self) -> None:
        with mock.patch("lldpa.agent.show.Counters", NewerCounters):
            counters = read_show(STATISTICS).counters["p1"]
            self.assertEqual(counters, (*COUNTS.values(), 0))
            counters = read_show([*STATISTICS, "lldp.p1.early-frames=7"]).counters["p1"]
            self.assertEqual(counters, (*COUNTS.values(), 7))

    def test_settings_of_a_newer_agent_are_skipped(self) -> None:
        end = len(NUMBERS)
        of_agent, of_port, nowhere = range(1, end + 1), [end + 1], range(0)  # after which lines
        for further, places in (
                ("configuration.further=3", of_agent), ("configuration.place=at 2 = b", of_agent),
                ("configuration.status=", of_agent), ("configuration.eth0.further=3", of_port),
                ("configuration.eth0.tx-hold=x", of_port), ("configuration.eth0.=3", nowhere),
                ("configuration.eth0.status=rx-and-tx", nowhere),
                ("configuration.Further=3", nowhere),
                ("configuration.eth0.further.more=3", nowhere), ("configuration.further", nowhere),
                ("configuration.=3", nowhere), ("configuration.tx-hold=31", nowhere),
                ("configuration.ports=2", nowhere), ("configuration.eth9.further=3", nowhere),
                ("configuration.eth9.status=disabled", nowhere),
                ("configurationxfurther=3", nowhere),
                ("configuration.eth0xfurther=3", nowhere), ("local-chassis.further=3", nowhere)):
            for place in range(len(CONFIGURATION) + 1):
                lines = [*CONFIGURATION[:place], further, *CONFIGURATION[place:]]
                with self.subTest(further, place=place):
                    if place in places:
                        self.assertEqual(read_show(lines), read_show(CONFIGURATION))
                    else:
                        self.assertRaises(ShowFault, read_show, lines)

    def test_a_setting_with_a_default_may_be_missing_at_an_older_agent(self) -> None:
        end = len(NUMBERS)
        newer = [*CONFIGURATION[:end], "configuration.further=7", *CONFIGURATION[end:]]
        with mock.patch("lldpa.agent.show.Configuration", NewerConfiguration):
            for number, lines in ((0, CONFIGURATION), (7, newer)):
                told = {**NUMBERS, "statuses": STATUSES, "further": number}
                self.assertEqual(read_show(lines).configuration, NewerConfiguration(**told))
            self.assertEqual(lines_of(read_show(newer)), newer)

    def test_more_ports_than_an_agent_has_are_refused(self) -> None:
        count = 65
        lines = [line.replace("ports=2", f"ports={count}") for line in CONFIGURATION[:len(NUMBERS)]]
        for name in range(count):
            lines += [f"configuration.{name}.status=disabled", f"configuration.{name}.further=x"]
        self.assertRaisesRegex(ShowFault, "^line 137: expected at most 64 ports", read_show, lines)
        neighbors = [f"lldp.{name}.{line}" for name in range(count)
                     for line in ("neighbors=0", "octets=0", "too-many=no")]
        self.assertRaisesRegex(ShowFault, "^line 193: expected a port", read_show, neighbors)
        self.assertEqual(len(read_show(neighbors[:-3]).ports), 64)
