"""Tests lldpa-ctl's tables, lists of ports, JSON and refusals."""

import json
import subprocess
from typing import Any

from lldpa.agent.shown import Counters
from served import CTL, REPOSITORY, Program, numbered, tlv

LIVE = [b"live.began=2026-11-23T19:40:00Z", b"live.eth0.interface=present",
          b"live.eth0.link=up", b"live.eth1.interface=awaited", b"live.eth1.link=down",
          b"live.eth0.since.1=2026-11-23T19:45:02Z mac=02:00:00:00:00:01 ifname=p1"]


class Words(Program):
    def setUp(self) -> None:
        super().setUp()
        self.served.live_lines = LIVE
        self.served.frame("eth0", numbered(1, 120, tlv(5, b"sw"), tlv(127, b"\0\x80\xc2\1\0\x78")))
        self.served.frame("eth1", numbered(2, 60))

    def told(self, line: str) -> list[str]:
        return self.run_ctl(*line.split()).splitlines()

    def object(self, line: str) -> Any:
        return json.loads(self.run_ctl("--json", *line.split()))

    def test_tables(self) -> None:
        rows = ["PORT  NEIGHBOR           ITS PORT  VLAN  MANAGEMENT   LEFT",
                "eth0  sw                 p1        120               120 s",
                "eth1  02:00:00:00:00:02  p2                           60 s"]
        self.assertEqual(self.told("neighbors"), [*rows, "2 neighbors on 2 ports."])
        for line in ("", "show neighbors summary", "neighbors eth1,eth0", "neighbors eth1 eth0"):
            self.assertEqual(self.told(line), [*rows, "2 neighbors on 2 ports."])
        self.assertEqual(len(self.told("neighbors eth1")), 3)
        self.assertEqual(self.told("show neighbors summary ports eth1"),
                         self.told("neighbors eth1"))

    def test_details(self) -> None:
        lines = self.told("details")
        self.assertEqual([lines[0], lines[7]], ["eth0: sw p1", "eth1: 02:00:00:00:00:02 p2"])
        self.assertRegex(lines[1], "^  Heard       since .*:45:02, 120 s of 120 s left$")
        self.assertEqual(self.told("details eth1"), lines[7:])
        self.assertEqual(self.told("show neighbors details ports eth1"), lines[7:])
        self.served.frame("eth0", numbered(1, 0))
        self.assertEqual(self.told("details eth0"), ["no neighbors on 1 port."])

    def test_interfaces(self) -> None:
        rows = ["PORT  INTERFACE  LINK  STATUS   NEIGHBORS",
                "eth0  present    up    rx-only          1",
                "eth1  awaited    down  rx-only          1"]
        self.assertEqual(self.told("interfaces"), rows)
        self.assertEqual(self.told("show interfaces"), rows)
        self.assertEqual(self.told("interfaces eth1"), [rows[0], rows[2]])
        self.assertEqual(self.object("interfaces eth1"), {"interfaces": [{
            "name": "eth1", "interface": "awaited", "link": "down", "status": "rx-only",
            "neighbors": 1}]})

    def test_statistics(self) -> None:
        names = [name.replace("_", "-").upper() for name in Counters._fields]
        lines = [line.split() for line in self.told("statistics")]
        self.assertEqual(lines[0], ["PORT", *names])
        self.served.frame("eth0", numbered(1, 120)[:20])
        lines = [line.split() for line in self.told("statistics")]
        at = names.index("RECEIVED") + 1
        self.assertEqual([(line[0], line[at]) for line in lines[1:]],
                         [("eth0", "2"), ("eth1", "1"), ("all", "3")])
        self.assertEqual(self.told("statistics eth1")[1].split(), lines[2])
        self.assertEqual([line.split() for line in self.told("statistics summary")],
                         [lines[0], lines[3]])
        told = self.object("statistics summary")["summary"]
        self.assertEqual((told["received"], told["discarded"]), (3, 1))

    def test_lists_of_ports(self) -> None:
        for show in ("neighbors", "statistics"):
            lines = self.told(f"show {show}")
            self.assertEqual(self.told(f"show {show} eth0,eth1"), lines)
            self.assertEqual(self.told(f"show {show} eth1 eth0"), lines)
            self.assertEqual(self.told(f"show {show} eth1"),
                             [line for line in lines if ".eth1." in line])
        self.assertEqual(self.told("configure ports eth0,eth1 lldp status tx-only"), [])
        self.assertEqual([line.split("=")[1] for line in self.told("show configuration")[-2:]],
                         ["tx-only", "tx-only"])
        asked = [line for line in self.served.asked if line.startswith(b"configure")]
        self.assertEqual(asked[:2], [b"configure ports eth0 lldp status tx-only",
                                     b"configure ports eth1 lldp status tx-only"])
        self.assertEqual(self.told("neighbors ports eth0,eth1"), self.told("neighbors"))

    def test_json_has_since_when(self) -> None:
        for line in ("", "details", "neighbors", "show neighbors", "show neighbors eth0"):
            neighbor = self.object(line)["ports"][0]["neighbors"][0]
            self.assertEqual(neighbor["since"], "2026-11-23T19:45:02Z")
        self.assertIsNone(self.object("details eth1")["ports"][0]["neighbors"][0]["since"])

    def test_what_is_refused_is_named(self) -> None:
        for line, said in (
                ("details eth7", "no such port: eth7 (eth0, eth1)"),
                ("neighbors eth0,eth7", "no such port: eth7 (eth0, eth1)"),
                ("neighbors eth0,", "no such port: empty name (eth0, eth1)"),
                ("interfaces x", "no such port: x (eth0, eth1)"),
                ("statistics x", "no such port: x (eth0, eth1)"),
                ("show statistics x", "no such port: x (eth0, eth1)"),
                ("live x", "extra word: x (no word is allowed here)"),
                ("update x", "extra word: x (no word is allowed here)"),
                ("show chassis x", "extra word: x (no word is allowed here)"),
                ("show neighbour", "unknown command: neighbour (neighbors, statistics, chassis, "
                 "configuration, interfaces)"),
                ("show", "unknown command: a word is missing (neighbors, statistics, chassis, "
                 "configuration, interfaces)"),
                ("configure lldp tx-hold 0",
                 "out of range: 0 (intervals that peers keep a frame, 1 to 100)"),
                ("configure lldp tx-hold x",
                 "not a number: x (intervals that peers keep a frame, 1 to 100)"),
                ("configure lldp tx-interval 3601",
                 "out of range: 3601 (seconds between frames, 1 to 3600)"),
                ("configure ports eth0,eth1 lldp status off",
                 "unknown command: off (rx-and-tx, rx-only, tx-only, disabled)"),
                ("configure ports eth9 lldp status disabled", "no such port: eth9 (eth0, eth1)"),
                ("neighbours", "unknown command: neighbours (neighbors, details, interfaces, "
                 "statistics, live, show, configure, update, watch, metrics, record, reload, check, help)"),
                ("tick", "for lldpa-live alone")):
            self.run_ctl(*line.split(), status=1, said=said)

    def test_each_command_of_lldpd_works_or_is_explained(self) -> None:
        rows = (REPOSITORY / "rust/people/src/lldpd.rows").read_text().splitlines()
        working = 0
        for line, wanted in (row.split(" | ") for row in rows):
            with subprocess.Popen([CTL, "--control", self.served.path, *line.split()], text=True,
                                  stdout=subprocess.PIPE, stderr=subprocess.PIPE) as ran:
                assert ran.stdout and ran.stderr
                if wanted.split()[0] == "watch":  # it has no end
                    self.assertRegex(ran.stdout.readline(), "^PORT ", line)
                    ran.kill()
                else:
                    said = ran.stderr.read()
                    is_right = not said or said.startswith(f"lldpa-ctl: {wanted}")
                    self.assertTrue(is_right, line + said)
                    self.assertEqual(ran.wait(), 1 if said else 0, line)
                    working += not said
        self.assertGreater(len(rows), 77)
        self.assertGreater(working, 20)

    def test_refusals_of_whole_lines_stay(self) -> None:
        for text in ("no permission", "waiting for an interface", "too many held"):
            self.served.refused = text
            self.run_ctl("configure", "lldp", "tx-hold", "0", status=1, said=text)
