"""Tests that lldpa-ctl shows counters and settings of a newer agent, which it does not know."""

import json
import subprocess
import unittest
from typing import Any, Dict, List

from schemas import LACKS_IT, jsonschema
from served import BIN, Program, REPOSITORY, Served, numbered

LLDPCLI = str(BIN / "lldpcli")
SCHEMA = json.loads((REPOSITORY / "docs" / "lldpa-ctl.schema.json").read_text())
OF_ETH0 = "lldp.eth0.drops="  # the line before a further counter
FURTHER = {OF_ETH0: ["lldp.eth0.early-frames=3"],
           "lldp.eth1.drops=": ["lldp.eth1.early-frames=4"],
           "configuration.ttl=": ["configuration.further-time=7"],
           "configuration.ports=": [r"configuration.place=caf\xe9"],
           "configuration.eth1.status=": ["configuration.eth1.further=9"]}


class Newer(Served):
    """An agent that tells one counter more, and some settings."""

    def __init__(self) -> None:
        self.further = dict(FURTHER)
        super().__init__()

    def ask(self, line: bytes) -> List[str]:
        lines: List[str] = []
        for one in super().ask(line):
            lines.append(one)
            for front, further in self.further.items():
                lines += further if one.startswith(front) else []
        return lines


class OfANewerAgent(Program):
    def setUp(self) -> None:
        self.served = self.newer = Newer()
        self.addCleanup(self.served.close)
        self.served.frame("eth0", numbered(1))

    def told(self, *words: str) -> Dict[str, Any]:
        told: Dict[str, Any] = json.loads(self.run_ctl("--json", *words))
        return told

    @unittest.skipIf(jsonschema is None, LACKS_IT)
    def test_json_conforms_to_the_schema(self) -> None:
        for words in ("show statistics", "statistics summary", "show configuration"):
            jsonschema.validate(self.told(*words.split()), SCHEMA)

    def test_counters_in_json(self) -> None:
        counters = self.told("show", "statistics")["counters"]
        told = {port: (of["early_frames"], of["received"], len(of))
                for port, of in counters.items()}
        self.assertEqual(told, {"eth0": (3, 1, 10), "eth1": (4, 0, 10)})
        summary = self.told("statistics", "summary")["summary"]
        self.assertEqual((summary["early_frames"], summary["received"]), (7, 1))

    def test_counters_in_the_table(self) -> None:
        lines = [line.split() for line in self.run_ctl("statistics").splitlines()]
        self.assertEqual([(line[0], line[-2], line[-1]) for line in lines], [
            ("PORT", "DROPS", "EARLY-FRAMES"), ("eth0", "0", "3"), ("eth1", "0", "4"),
            ("all", "0", "7")])
        del self.newer.further[OF_ETH0]
        lines = [line.split() for line in self.run_ctl("statistics").splitlines()]
        self.assertEqual([line[-1] for line in lines], ["EARLY-FRAMES", "?", "4", "4"])

    def test_counters_in_metrics(self) -> None:
        metrics = self.run_ctl("metrics")
        self.assertIn("# HELP lldpa_early_frames_total The counter early-frames of the agent.\n"
                      "# TYPE lldpa_early_frames_total counter\n"
                      'lldpa_early_frames_total{port="eth0"} 3\n'
                      'lldpa_early_frames_total{port="eth1"} 4\n', metrics)
        self.assertIn('lldpa_received_total{port="eth0"} 1\n', metrics)

    def test_a_counter_is_in_no_metric_that_is_there_already(self) -> None:
        before = self.run_ctl("metrics").splitlines()
        self.newer.further[OF_ETH0] = ["lldp.eth0.kernel-drops=5"]
        after = self.run_ctl("metrics").splitlines()
        self.assertEqual(set(before) - set(after), {'lldpa_early_frames_total{port="eth0"} 3'})
        self.assertEqual(set(after) - set(before), set())

    def test_lldpclis_statistics_have_lldpds_counters(self) -> None:
        words = ("-f", "json", "show", "statistics")
        newer = self.of_lldpcli(*words)
        self.newer.further = {}
        self.assertEqual(newer, self.of_lldpcli(*words))
        self.assertIn('"rx": "1"', newer)

    def of_lldpcli(self, *words: str) -> str:
        return subprocess.run([LLDPCLI, "-u", self.served.path, *words], check=True,
                              stdout=subprocess.PIPE, text=True).stdout

    def test_settings_in_json(self) -> None:
        told = self.told("show", "configuration")["configuration"]
        self.assertEqual((told["further_time"], told["ttl"], told["tx_interval"]), (7, 121, 30))
        self.assertEqual((told["place"], told["octets"]), (r"caf\xe9", {"place": "636166e9"}))
        self.assertEqual(told["of_ports"], {"eth1": {"further": 9}})
        self.assertEqual(told["statuses"], {"eth0": "rx-only", "eth1": "rx-only"})
        self.newer.further = {}
        told = self.told("show", "configuration")["configuration"]
        self.assertEqual(len(told), 8)
        self.assertNotIn("of_ports", told)

    def test_more_than_an_agent_could_have_are_refused(self) -> None:
        letters = "abcdefghijklmnopqrstuvwxyz"
        keys = [f"further-{one}{other}" for one in letters for other in letters][:101]
        self.newer.further[OF_ETH0] = [f"lldp.eth0.{key}=1" for key in keys]
        said = ("not an answer of lldpa-live: line 110: expected at most 100 further keys, "
                "but found 'lldp.eth0.further-dw=1'")
        for words in (("statistics",), ("--json", "show", "statistics"), ("metrics",)):
            self.run_ctl(*words, status=1, said=said)
