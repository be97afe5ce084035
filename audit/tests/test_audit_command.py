"""Tests lldpa-audit as people run it: arguments, statuses, captures, pipes, a running agent."""
import gzip
import json
import os
import re
import subprocess
import sys
import threading
import time
import unittest
from pathlib import Path
from unittest import mock

import made_captures
import rack
import vendors
from auditing import (AUDIT, HEAD, WITH_AGENT, InAFolder, neighbor, run, run_whole,
                      without_ages)
from lldpa_audit.names import End, Names
from lldpa_audit.plan import Link, Plan
from lldpa_audit.seen.gather import Gathering
from lldpa_audit.seen.tables import Tables
from lldpa_audit.what import What, placed
from patience import HANGS
from served import REPOSITORY

RIGHT = "1 cable: 1 right, 0 wrong\n"


class Audits(InAFolder):
    """Audits of leaf1, whose port swp1 should hear host01 eth0."""

    def setUp(self) -> None:
        super().setUp()
        self.plan = self.file("plan", f"{HEAD}leaf1,swp1,host01,eth0\n")

    def audit(self, *words: str) -> tuple[int, str, str]:
        """Returns the status of an audit of leaf1, its output, and its errors."""
        ran = run(self.plan, "--host", "leaf1", *words)
        return ran.returncode, ran.stdout, ran.stderr

    def capture(self, name: str, *frames: bytes, start: int = rack.START) -> str:
        """Writes a capture of swp1, and returns the argument for it."""
        frames = frames or (rack.lldp_frame("host01", "eth0"),)
        return f"swp1={self.file(name, rack.pcap(frames, start))}"


class Forms(Audits):
    """Checks that the same six ports give the same lines in each form."""

    def test_forms(self) -> None:
        self.plan = self.file("rack.csv", rack.csv_plan())
        show = self.file("show", rack.text_of_show())
        captures = [f"{port}={self.file(port, rack.pcap(rack.frames(port)))}"
                    for port in rack.PORTS]
        whole = self.file("whole", rack.pcapng({port: rack.frames(port) for port in rack.PORTS}))
        for words in (captures, [whole], [show], [f"leaf1:{show}"]):
            status, out, err = self.audit(*words)
            self.assertEqual((status, out.splitlines(), err), (1, rack.LINES, ""))

    def test_wait(self) -> None:
        """Checks that an audit asks until the port hears somebody, twice a second at most, and that
        what it learns is as old as the audit."""
        plan = Plan("plan", [Link(End("leaf1", "swp1"), End("host01", "eth0"), None)], Names())
        gathering = Gathering(Tables(plan.names), "", print)
        with mock.patch("lldpa_audit.seen.gather.Ctl") as ctl:
            ask = ctl.return_value.text
            ask.return_value = "lldp.swp1.neighbors=0\nlldp.swp1.octets=0\nlldp.swp1.too-many=no\n"
            gathering.add_live("leaf1", "", plan, 0.9)
        self.assertLess(ask.call_count, 4)
        self.assertEqual(gathering.tables.times, [gathering.now])

    def test_lldpa_ctl_beside_the_program(self) -> None:
        """Checks that --live finds the lldpa-ctl of a clone, which nobody has installed."""
        for name in ("audit", "python"):
            (self.folder / name).symlink_to(REPOSITORY / name)
        program = self.file("bin/lldpa-audit", (REPOSITORY / "bin" / "lldpa-audit").read_text())
        ctl = self.file("bin/lldpa-ctl", "#!/bin/sh\nprintf 'lldp.swp1.%s\\n' neighbors=0 octets=0 "
                        "too-many=no\n")
        os.chmod(ctl, 0o755)
        ran = subprocess.run([sys.executable, "-I", program, "--host", "leaf1", "--live", self.plan],
                             env={"PATH": "/usr/bin:/bin"}, capture_output=True, text=True,
                             check=False)
        self.assertEqual((ran.returncode, without_ages(ran.stdout), ran.stderr), (
            1, "swp1  silent: wants host01 eth0\n1 cable: 0 right, 1 wrong\n", ""))

    def test_what_is_read_once(self) -> None:
        octets, show = rack.pcap([rack.lldp_frame("host01", "eth0")]), rack.text_of_show(["swp1"])
        for number, (text, front) in enumerate((
                (octets, "swp1="), (show.encode(), ""), (show.encode(), "leaf1:"),
                (rack.pcapng({"swp1": rack.frames("swp1")}), ""),
                (gzip.compress(octets), "swp1="))):
            fifo = str(self.folder / f"{number}")
            os.mkfifo(fifo)
            writer = threading.Thread(target=Path(fifo).write_bytes, args=[text])
            writer.start()
            self.assertEqual(self.audit(front + fifo), (0, RIGHT, ""))
            writer.join()
        self.file("show", show)
        command = '"$0" "$@" --host leaf1 <(cat plan) <(gzip < show)'
        ran = subprocess.run(["bash", "-c", command, sys.executable, AUDIT], cwd=self.folder,
                             env=WITH_AGENT, capture_output=True, text=True, check=False)
        self.assertEqual((ran.returncode, without_ages(ran.stdout), ran.stderr), (0, RIGHT, ""))


class Words(Audits):
    def test_what_is_refused(self) -> None:
        none = f"{self.folder}/none"
        bad = self.file("bad", f"{HEAD}a,1,b\n")
        capture = self.capture("a")
        some_named = self.file("some", rack.pcapng({"swp1": rack.frames("swp1"), "": []}))
        for words, said in (
                ("", "nothing to audit: give captures, lists of neighbors, or --live"),
                ("swp1=none", "none: No such file or directory"),
                ("none", "none: No such file or directory"),
                (f"swp1={self.folder}", "Is a directory"),
                ("--wait x swp1=a", "'x' is not a time such as 90, 15m, 12h or 1d"),
                ("--columns from swp1=a", "'from' is not like host=NAME,port=NAME"),
                ("--live=", "the name of a file is missing"),
                ("--liv", "unrecognized arguments: --liv"),
                (capture[5:], "it does not name the port of its frames: write PORT="),
                (some_named, "it does not name the port of its frames: write PORT="),
                (f"--host LEAF1.lab {capture}",
                 "no cable of the host LEAF1.lab that can be judged, but has the host leaf1: see")):
            status, out, err = self.audit(*words.split())
            self.assertEqual((status, out), (2, ""), words)
            self.assertIn(said, err)
        for plan, said in ((none, "/none: No such"), (bad, "line 2: its peer_port is missing")):
            ran = run(plan, capture)
            self.assertEqual((ran.returncode, ran.stdout), (2, ""))
            self.assertIn(said, ran.stderr)
        ran = subprocess.run([sys.executable, AUDIT, self.plan, capture], text=True, check=False,
                             env={"PATH": "/none"}, capture_output=True)
        self.assertEqual((ran.returncode, ran.stdout), (2, ""))

    def test_hosts_of_words(self) -> None:
        self.assertEqual(self.audit("--host", "LEAF1.lab", "--short-names", "--ignore-case",
                                    self.capture("a")), (0, RIGHT, ""))
        self.plan = self.file("two", f"{HEAD}leaf1,swp1,host01,eth0\nleaf2,swp1,host02,eth0\n")
        other = self.capture("b", rack.lldp_frame("host02", "eth0"))
        words = [self.capture("a"), f"leaf2:{other}"]
        self.assertEqual(self.audit(*words), (0, "2 cables: 2 right, 0 wrong\n", ""))
        self.assertIn("leaf1 swp1  wrong: wants host01 eth0, has host02 eth0",
                      self.audit(other, words[1])[1])

    def test_what_is_loaded(self) -> None:
        """Checks that the program starts without the modules of the network, which take 6 MB."""
        paths = [str(REPOSITORY / part) for part in ("audit", "python")]
        text = (f"import sys\nsys.path[:0] = {paths}\nimport lldpa_audit.command\n"
                "print(*sys.modules)")
        told = subprocess.run([sys.executable, "-I", "-S", "-c", text], capture_output=True,
                              text=True, check=True).stdout
        self.assertEqual({*told.split()} & {"ssl", "http", "email", "urllib.request"}, set())

    def test_ports_with_a_colon(self) -> None:
        plan = Plan("plan", [Link(End("leaf1", "swp1:0"), End("02:00:00:00:00:01", "p"), None)],
                    Names())
        for port, host, its_port in (
                ("swp1:0", "us", "swp1:0"), ("et-0/0/0:1", "us", "et-0/0/0:1"),
                ("leaf1:swp1:0", "leaf1", "swp1:0"), ("leaf1:x", "leaf1", "x"),
                ("02:00:00:00:00:01:p", "02:00:00:00:00:01", "p"), ("x:y", "x", "y"),
                ("leaf1:3", "leaf1", "3"), ("swp1", "us", "swp1"), ("a:", "us", "a:")):
            self.assertEqual(placed(What("us", port, "f"), plan, "us"),
                             What(host, its_port, "f"), port)
        self.assertEqual(placed(What("leaf1", "swp1:0", "f"), plan, "us").port, "swp1:0")


class Captures(Audits):
    def test_damaged_files_are_no_empty_ports(self) -> None:
        cut = gzip.compress(rack.pcap([rack.lldp_frame("host01", "eth0")]))[:-9]
        for octets, port, why in (
                (b"", "swp1=", "it is empty"), (b"", "", "it is empty"),
                (b"no capture\n", "swp1=", "it is not a capture"),
                (b"no list\n", "", "it looks like"),
                (cut, "swp1=", "its gzip data is cut short"),
                (rack.pcap(rack.frames("swp1"))[:-7], "swp1=", "it ends at octet "),
                (rack.pcapng({"swp1": rack.frames("swp1")})[:-7], "", "it ends at octet ")):
            path = self.file("file", octets)
            status, out, err = self.audit(f"{port}{path}")
            self.assertEqual(status, 3)
            self.assertIn(f"swp1  no data: wants host01 eth0 ({path}: {why}", out)
            self.assertIn(f"lldpa-audit: {path}: {why}", err)
        status, out, _ = self.audit(self.capture("a"), f"swp9={path}")
        self.assertEqual((status, out), (3, RIGHT))

    def test_frames(self) -> None:
        own, peer = rack.lldp_frame("leaf1", "swp1"), rack.lldp_frame("host01", "eth0")
        tagged = peer[:12] + bytes.fromhex("81000005") + peer[12:]
        first = self.capture("first", rack.lldp_frame("host99", "eth0"))
        for words, status, said in (
                ([self.capture("a", own, peer, own, peer)], 0, RIGHT),
                ([self.capture("b", own)], 1, "swp1  silent"),
                ([self.capture("c", tagged)], 3, "swp1  no data: wants host01 eth0 ("),
                ([self.capture("d", tagged, peer)], 0, RIGHT),
                ([self.capture("e", start=rack.START + 121), first], 0, RIGHT),
                ([self.capture("f", start=rack.START + 119), first], 1, "swp1  extra: host99 eth0"),
                ([self.capture("g", rack.lldp_frame("\x1b[2J", "eth0"))], 1,
                 "swp1  wrong: wants host01 eth0, has \\x1b[2J eth0\n")):
            found, out, _ = self.audit(*words)
            self.assertEqual(found, status, said)
            self.assertIn(said, out)

    def test_many_interfaces(self) -> None:
        for heard, ports in (({"swp1": "1", "swp64": "64", "swp200": "200"}, 200),
                             ({f"swp{at}": f"{at}" for at in range(1, 151)}, 150)):
            rows = [f"leaf1,{port},host{name},eth0\n" for port, name in heard.items()]
            self.plan = self.file("wide", HEAD + "".join(rows))
            path = self.file("wide.pcapng", rack.pcapng({
                f"swp{at}": [rack.lldp_frame(f"host{heard[f'swp{at}']}", "eth0")]
                if f"swp{at}" in heard else [] for at in range(1, ports + 1)}))
            count = len(heard)
            self.assertEqual(self.audit(path), (0, f"{count} cables: {count} right, 0 wrong\n", ""))

    def test_interfaces_that_are_no_ethernet(self) -> None:
        """Checks that nothing is known of them, and that they need no name."""
        self.plan = self.file("two", f"{HEAD}leaf1,swp1,host01,eth0\nleaf1,swp2,host02,eth0\n")
        octets = rack.pcapng({"swp1": [rack.lldp_frame("host01", "eth0")]})
        for name in ("swp2", ""):
            octets += made_captures.interface(name=name, link_type=113)
        status, out, err = self.audit(self.file("c.pcapng", octets))
        self.assertEqual((status, out.splitlines(), err), (3, [
            "swp2  no data: wants host02 eth0",
            "2 cables: 1 right, 0 wrong, 1 not looked at (host02)"], ""))

    def test_names(self) -> None:
        port = "TenGigabitEthernet1/0/1.100"
        self.plan = self.file("long", f"{HEAD}leaf1,{port},host01,eth0\n")
        path = self.file("c", rack.pcapng({port: [rack.lldp_frame("host01", "eth0")]}))
        self.assertEqual(self.audit(path), (0, RIGHT, ""))
        frame = rack.lldp_frame("host", "eth0").replace(b"host", b"\xff\xfe\x80t")
        path = self.file("d", rack.pcapng({port: [frame]}))
        status, out, _ = self.audit("--json", path)
        self.assertEqual(status, 1)
        json.dumps(json.loads(out), ensure_ascii=False).encode()
        self.assertEqual(json.loads(out)["ends"][0]["has"][0]["host_names"][0], "\\xff\\xfe\\x80t")


class Sources(Audits):
    def test_ages(self) -> None:
        self.plan = self.file("two", f"{HEAD}leaf1,swp1,host01,eth0\nleaf2,swp1,host02,eth0\n")
        many = self.file("many", json.dumps({"leaf2": {"swp1": [{"hostname": "host02",
                                                                 "port": "eth0"}]}}))
        show = self.file("leaf1", neighbor("swp1", "host01", "eth0"))
        self.assertTrue(run_whole(self.plan, show, many).stdout.endswith(
            "; sources of unknown age\n"))
        words = [self.plan, show, many, "--stale-after"]
        self.assertRegex(run_whole(*words, "file:1d").stdout, r"; sources \d+ seconds? old\n$")
        for path, host in ((show, "leaf1"), (many, "leaf2")):
            os.utime(path, (time.time() - 400.5 * 86400,) * 2)
            ran = run_whole(*words, "file:1d")
            self.assertEqual(ran.returncode, 3)
            self.assertRegex(ran.stdout, r"400 days old\n$")
            self.assertRegex(ran.stdout,
                             rf"{host} swp1  no data: wants .*{path}: it is 400 days old\)")
        self.assertEqual(run_whole(*words, "file:401d").returncode, 0)
        for word in ("1w", "", "-1", "d", "file:", "file:x", "x:1d"):
            self.assertEqual(self.audit(show, f"--stale-after={word}")[0], 2, word)

    def test_the_newest_and_the_oldest(self) -> None:
        """Checks which of three sources is the newest, and which the oldest, in each form."""
        plan = self.file("p", HEAD + "".join(f"h{at},swp1,x{at},e0\n" for at in range(4)))
        ages = (3.5 * 86400, 10.5 * 3600, 4.5 * 86400)
        for at, age in enumerate((*ages, None)):
            heard = vendors.eos({"swp1": [(f"x{at}", "e0")]})
            if age is not None:
                one, = heard["lldpNeighbors"]["swp1"]["lldpNeighborInfo"]
                one["lastContactTime"] = time.time() - age
            self.file(f"lists/h{at}", json.dumps(heard))
        metrics = self.folder / "metrics"
        words = [plan, f"{self.folder}/lists", "--metrics", str(metrics)]
        self.assertEqual(run_whole(*words).stdout, "4 cables: 4 right, 0 wrong; sources 10 hours "
                                                   "to 4 days old, 1 of unknown age\n")
        told = json.loads(run_whole(*words, "--json").stdout)["sources"]
        found = {name: float(text) for name, text in re.findall(
            'source_timestamp_seconds{source="(.*)"} (.*)', metrics.read_text())}
        for name, age in (("newest", ages[1]), ("oldest", ages[2])):
            self.assertAlmostEqual(told[name], age, delta=HANGS)
            self.assertAlmostEqual(time.time() - found[name], age, delta=HANGS)
        self.assertEqual(told["undated"], 1)


class Worked(unittest.TestCase):
    """The example of the page, by both of its plans."""

    def test_each_plan(self) -> None:
        folder = REPOSITORY / "audit" / "worked"
        expected = (folder / "expected.txt").read_text()
        captures = [f"swp{number}=swp{number}.pcap" for number in range(1, 9)]
        for plan, lines in (("plan.csv", expected),
                            ("plan.dot", re.sub(r" \[[^]]*\]$", "", expected, flags=re.M))):
            ran = run_whole("--host", "leaf1", plan, *captures, folder=str(folder))
            told = re.sub("sources .* old", "sources N days old", ran.stdout)
            self.assertEqual((ran.returncode, told), (1, lines))
