"""Tests the metrics in Prometheus' text format, and the alerts in share/prometheus."""

import json
import re
import shutil
import subprocess
import tempfile
import unittest
from pathlib import Path

from lldpa.agent.show import Counters
from patience import eventually
from running_live import OnLinks
from served import LIVE_LINES, CTL, REPOSITORY, Served, ctl, frame, numbered, tlv
from texts_shown import shown_text

FOLDER = REPOSITORY / "share" / "prometheus"
RULES, TESTS = FOLDER / "lldpa.rules.yml", FOLDER / "lldpa.rules.test.yml"
DASHBOARD = FOLDER / "lldpa.dashboard.json"
# lines of the answer to `live` that only newer services have
NEWER = [b"live.version=1.0.0", *(b"live.eth0.%s=%d" % one for one in ((b"came", 3), (b"changed", 2), (b"gone", 1)))]
has_promtool = unittest.skipUnless(shutil.which("promtool"),
                                   "promtool: it is not installed")
SAMPLE = re.compile(r'([a-z_]+)(?:\{((?:[a-z_]+="(?:[^"\\\n]|\\["\\n])*",?)+)\})? ([0-9]+)')
A_MINUTE = 60.0
LABEL = re.compile(r'([a-z_]+)="((?:[^"\\\n]|\\["\\n])*)"')
Series = dict[tuple[str, tuple[tuple[str, str], ...]], int]


def read(value: str) -> str:
    """Returns the value of a label as Prometheus reads it."""
    return re.sub(r"\\(.)", lambda found: {"n": "\n"}.get(found[1], found[1]), value)


def series_of(lines: list[str]) -> Series:
    """Reads samples as Prometheus does. Returns the value for each name with its labels."""
    series: Series = {}
    for line in lines:
        if line.startswith("#"):
            continue
        found = SAMPLE.fullmatch(line)
        assert found, line
        labels = tuple((name, read(value)) for name, value in LABEL.findall(found[2] or ""))
        assert (found[1], labels) not in series, line
        series[found[1], labels] = int(found[3])
    return series


class Metrics(unittest.TestCase):
    def setUp(self) -> None:
        self.served = Served(max_neighbors=3)
        self.addCleanup(self.served.close)

    def shown(self) -> Series:
        return series_of(ctl(self.served.path, "metrics").stdout.splitlines())

    def test_ports_and_their_counters(self) -> None:
        for number in range(4):
            self.served.frame("eth0", numbered(number))
        self.served.frame("eth1", numbered(0)[:20])
        series = self.shown()
        told = {(name, labels[0][1]): value for (name, labels), value in series.items()
                if [label for label, _ in labels] == ["port"]}
        counters = {name: 0 for name in Counters._fields}
        counters.update(received=4, drops=1)
        for name, value in counters.items():
            self.assertEqual(told.pop((f"lldpa_{name}_total", "eth0")), value, name)
        for name in counters:
            value = int(name in ("received", "discarded", "errors"))
            self.assertEqual(told.pop((f"lldpa_{name}_total", "eth1")), value, name)
        self.assertEqual(told, {
            ("lldpa_neighbors", "eth0"): 3, ("lldpa_neighbors", "eth1"): 0,
            ("lldpa_too_many", "eth0"): 1, ("lldpa_too_many", "eth1"): 0,
            ("lldpa_interface_present", "eth0"): 1, ("lldpa_interface_present", "eth1"): 0,
            ("lldpa_link_up", "eth0"): 1, ("lldpa_link_up", "eth1"): 0,
            ("lldpa_kernel_drops_total", "eth0"): 7, ("lldpa_kernel_drops_total", "eth1"): 0,
            ("lldpa_limit_drops_total", "eth0"): 6, ("lldpa_limit_drops_total", "eth1"): 0,
            ("lldpa_other_frames_total", "eth0"): 8, ("lldpa_other_frames_total", "eth1"): 0,
            ("lldpa_unsent_total", "eth0"): 4, ("lldpa_unsent_total", "eth1"): 0,
            ("lldpa_left_out_total", "eth0"): 3, ("lldpa_left_out_total", "eth1"): 0})

    def own(self, *lines: bytes) -> Series:
        """Puts these lines in lldpa-live's answer. Returns the metrics about lldpa-live itself."""
        lines_by_key = {line.partition(b"=")[0]: line for line in (*LIVE_LINES, *lines)}
        self.served.live_lines = list(lines_by_key.values())
        return {(name, labels): value for (name, labels), value in self.shown().items()
                if not {"port"} & dict(labels).keys()}

    def test_lldpa_live_itself(self) -> None:
        agent = "lldpa_agent_state"
        self.assertEqual(self.own(), {
            ("lldpa_up", ()): 1, ("lldpa_start_time_seconds", ()): 1795599000,
            (agent, (("state", "running"),)): 1, (agent, (("state", "waiting"),)): 0,
            ("lldpa_settings_refused", ()): 2, ("lldpa_ports_refused", ()): 1,
            ("lldpa_recorders", ()): 1, ("lldpa_record_lines_lost_total", ()): 5})
        for state, is_up in (("running", 1), ("waiting", 0)):
            series = self.own(b"live.agent=" + state.encode())
            self.assertEqual(series["lldpa_up", ()], is_up)
            self.assertEqual([labels[0][1] for (name, labels), value in series.items()
                              if name == agent and value], [state])

    def test_the_version_and_the_changes_of_neighbors(self) -> None:
        series = self.own(*NEWER)
        self.assertEqual(series["lldpa_build_info", (("version", "1.0.0"),)], 1)
        changes = {labels: value for (name, labels), value in self.shown().items() if name == "lldpa_changes_total"}
        self.assertEqual(changes, {(("port", "eth0"), ("kind", kind)): value
                                   for kind, value in (("came", 3), ("changed", 2), ("gone", 1))})

    def test_what_lldpa_live_does_not_tell_is_left_out(self) -> None:
        self.served.live_lines = [b"live.eth0.kernel-drops=1", b"live.eth0.1.since=2",
                                    b"live.later=3"]
        names = {name for name, _ in self.shown() if not name.startswith("lldpa_neighbor")}
        counters = {f"lldpa_{name}_total" for name in Counters._fields}
        self.assertEqual(names - counters,
                         {"lldpa_up", "lldpa_too_many", "lldpa_kernel_drops_total"})

    def test_neighbors(self) -> None:
        text = b'a "quoted" \\ back\nslash\x1b'
        address = bytes([5, 1, 192, 0, 2, 1, 2, 0, 0, 0, 1, 0])
        said = [tlv(4, b"uplink"), tlv(5, text), tlv(8, address),
                tlv(127, b"\0\x80\xc2\1\0\x78"), tlv(127, b"\0\x12\x0f\4\5\xf2")]
        self.served.frame("eth0", frame(b"\x07" + text, b"\x05swp1", 90, *said))
        series = {name: (labels, value) for (name, labels), value in self.shown().items()}
        shown = 'a "quoted" \\\\ back\\x0aslash\\x1b'
        identity = (("port", "eth0"), ("chassis_kind", "local"), ("chassis", shown),
                    ("port_id_kind", "ifname"), ("port_id", "swp1"))
        self.assertEqual(series["lldpa_expires_seconds"], (identity, 90))
        self.assertEqual(series["lldpa_neighbor_info"], (
            (*identity, ("name", shown), ("port_descr", "uplink"), ("management", "192.0.2.1"),
             ("pvid", "120"), ("max_frame_size", "1522")), 1))

    def test_what_is_not_said_is_empty(self) -> None:
        self.served.frame("eth0", numbered(1, 90, tlv(127, b"\0\x80\xc2\1\xff\xff")))
        labels = [dict(labels) for name, labels in self.shown() if name == "lldpa_neighbor_info"]
        self.assertEqual([(one["pvid"], one["max_frame_size"], one["port_descr"])
                          for one in labels], [("", "", "")])

    def test_series_of_neighbors_are_as_many_as_a_table_holds(self) -> None:
        for number in range(200):
            vlan = tlv(127, b"\0\x80\xc2\1" + bytes([0, number]))
            self.served.frame("eth0", numbered(number, 90, vlan, tlv(5, b"n%d" % number)))
            self.served.frame("eth0", numbered(1, 90, vlan, tlv(4, b"%d" % number)))
        names = [name for name, _ in self.shown()]
        self.assertEqual(names.count("lldpa_neighbor_info"), 3)
        self.assertEqual(names.count("lldpa_expires_seconds"), 3)

    def test_neighbors_of_one_text_are_told_apart(self) -> None:
        for chassis in (b"\x04\x02\0\0\0\0\x01", b"\x0702:00:00:00:00:01"):
            self.served.frame("eth0", frame(chassis, b"\x05p", 90))
        names = [name for name, _ in self.shown()]
        self.assertEqual(names.count("lldpa_neighbor_info"), 2)
        self.assertEqual(names.count("lldpa_expires_seconds"), 2)

    def test_values_are_escaped(self) -> None:
        for value in ('"', "\\", "\n", '\\"', "\\n", "a\\\\n\"\n", "é"):
            self.served.frame("eth0", numbered(1, 90, tlv(5, value.encode())))
            names = [dict(labels)["name"] for name, labels in self.shown()
                     if name == "lldpa_neighbor_info"]
            self.assertEqual(names, [shown_text(value.encode())])

    @has_promtool
    def test_promtool_says_nothing(self) -> None:
        for _ in range(2):
            words = f"{CTL} --control {self.served.path} metrics | promtool check metrics"
            told = subprocess.run(["bash", "-o", "pipefail", "-c", words], check=False,
                                  capture_output=True, text=True)
            self.assertEqual((told.returncode, told.stdout, told.stderr), (0, "", ""))
            for kind in range(1, 4):
                text = b'"\\\n\r\x1b\xff' + bytes(range(60, 200))
                self.served.frame("eth0", frame(bytes([kind]) + text, b"\x07" + text, 90,
                                                tlv(5, text), tlv(4, text)))


class Rules(unittest.TestCase):
    """Tests the alert rules, and the rules' own tests, which promtool runs."""

    def test_each_metric_is_one_that_is_told(self) -> None:
        with Served() as served:
            served.frame("eth0", numbered(1))
            names = set(re.findall(r"^# TYPE (\S+)", ctl(served.path, "metrics").stdout, re.M))
        asked = set(re.findall(r"\blldpa_[a-z_]+", RULES.read_text()))
        self.assertGreater(len(asked), 8)
        self.assertEqual(asked - names, set())

    def test_each_alert_is_seen_to_fire(self) -> None:
        alerts = re.findall(r"^ +- alert: (\S+)$", RULES.read_text(), re.M)
        fires = r"^ +- alertname: (\S+)\n +eval_time: \S+\n +exp_alerts:"
        self.assertEqual(sorted(alerts), sorted(set(re.findall(fires, TESTS.read_text(), re.M))))

    @has_promtool
    def test_promtool_takes_them(self) -> None:
        for words in (["check", "rules", str(RULES)], ["test", "rules", str(TESTS)]):
            told = subprocess.run(["promtool", *words], check=False, capture_output=True, text=True)
            self.assertEqual(told.returncode, 0, told.stdout + told.stderr)
            self.assertIn("SUCCESS", told.stdout)

    @has_promtool
    def test_the_metrics_fill_the_dashboard(self) -> None:
        with Served() as served:
            served.live_lines = [*LIVE_LINES, *NEWER]
            served.frame("eth0", numbered(1))
            samples = [line for line in ctl(served.path, "metrics").stdout.splitlines() if line[0] != "#"]
        panels = json.loads(DASHBOARD.read_text())["panels"]
        told = ruled(fills(samples, [target["expr"] for panel in panels for target in panel["targets"]]))
        self.assertEqual(told.returncode, 0, told.stdout + told.stderr)


class Swapped(OnLinks):
    """web1 at eth0 and web2 at eth1 have cables to peer0 and peer1 of the switch leaf1."""

    links = 2

    def swap(self) -> None:
        """Plugs the cable of each host where the other one was."""
        for end in ("peer0", "peer1"):
            self.wires.set_link(end, "down")
        self.agents["web1"].comes_to("live.eth0.link=down")
        self.agents["web2"].comes_to("live.eth1.link=down")
        for old, new in (("peer0", "far"), ("peer1", "peer0"), ("far", "peer1")):
            self.wires.set_link(old, "name", new)
        for end in ("peer0", "peer1"):
            self.wires.set_link(end, "up")

    def heard(self) -> set[str]:
        """Returns the series of neighbors that the metrics of all have."""
        told = ((name, line.split("{", 1)) for name, live in self.agents.items()
                for line in live.ctl("metrics").splitlines() if line.startswith("lldpa_neighbor_info{"))
        return {f'{metric}{{instance="{name}",{rest.removesuffix(" 1")}' for name, (metric, rest) in told}

    @has_promtool
    def test_two_hosts_that_swap_their_cables_raise_an_alert(self) -> None:
        self.agents = {name: self.live(*ports, "--forget-on-down", "--", "--hostname", name, side=side)
                       for name, ports, side in (("web1", ["eth0"], "here"), ("web2", ["eth1"], "here"),
                                                 ("leaf1", ["peer0", "peer1"], "there"))}
        self.assertTrue(eventually(lambda: len(self.heard()) == 4), self.heard())
        before = self.heard()
        self.swap()
        others = lambda: len(self.heard() - before) == 4 == len(self.heard())
        self.assertTrue(eventually(others, A_MINUTE), self.heard())
        self.assertIn('lldpa_changes_total{port="eth0",kind="came"} 2\n', self.agents["web1"].ctl("metrics"))
        # the samples of ten minutes before, and of two minutes after
        series = [{"series": one, "values": "1x20 stale"} for one in before]
        series += [{"series": one, "values": "_x21 1x4"} for one in self.heard()]
        ends = [("web1", "eth0"), ("web2", "eth1"), ("leaf1", "peer0"), ("leaf1", "peer1")]
        moved = 'count by (instance, port) (ALERTS{alertname="LldpaNeighborMoved",alertstate="firing"})'
        expected = [{"labels": f'{{instance="{name}",port="{port}"}}', "value": 1} for name, port in ends]
        promtool = [{"expr": moved, "eval_time": "10m", "exp_samples": []},
                    {"expr": moved, "eval_time": "10m30s", "exp_samples": expected}]
        told = ruled({"interval": "30s", "input_series": series, "promql_expr_test": promtool})
        self.assertEqual(told.returncode, 0, told.stdout + told.stderr)


def ruled(test: dict[str, object]) -> subprocess.CompletedProcess[str]:
    """Lets promtool run a test of the rules."""
    with tempfile.TemporaryDirectory() as folder:
        file = Path(folder, "test.json")
        file.write_text(json.dumps({"rule_files": [str(RULES)], "evaluation_interval": "30s", "tests": [test]}))
        return subprocess.run(["promtool", "test", "rules", file], check=False, capture_output=True, text=True)


def fills(samples: list[str], asked: list[str]) -> dict[str, object]:
    """Returns a test for promtool: each of these expressions has a value, if counters of the samples grow."""
    series = []
    for sample in samples:
        name, labels = re.match(r"([a-z_]+)(?:{(.*)})? ", sample).groups()  # type: ignore[union-attr]
        series.append({"series": f'{name}{{instance="leaf1",{labels or ""}}}',
                       "values": "1+1x40" if name.endswith("_total") else sample.split()[-1] + "x40"})
    has_value = [{"expr": f"count({one}) > bool 0", "eval_time": "15m",
                  "exp_samples": [{"labels": "{}", "value": 1}]} for one in asked]
    return {"interval": "30s", "input_series": series, "promql_expr_test": has_value}
