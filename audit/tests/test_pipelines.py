"""Tests an audit's outputs for pipelines and people: JSON, JUnit, metrics, known faults, groups."""
import json
import shutil
import subprocess
import sys
import unittest
from pathlib import Path
from typing import Any, List, Sequence, Tuple
from xml.etree import ElementTree

import schema_rules
import situations
from auditing import AUDIT, HEAD, InAFolder, hears_two, neighbor, run
from schemas import LACKS_IT, jsonschema

SCHEMA = json.loads((Path(__file__).parents[1] / "lldpa-audit.schema.json").read_text())
PLAN = """\
host,port,peer,peer_port,label,rack,
leaf1,swp1,host01,eth0,C1,r2,
leaf1,swp2,host02,eth0,C2,r1,
leaf1,swp3,host03,eth0,C3,r1,
leaf1,swp4,host04,eth0,C4,r10,
"""


class Outputs(InAFolder):
    """One audit of four ports: one right, one wrong, one silent, and one extra."""

    def setUp(self) -> None:
        super().setUp()
        self.plan = self.file("plan.csv", PLAN)
        ports = [neighbor("swp1", "host01", "eth0"), neighbor("swp2", "x", "y"),
                 "lldp.swp3.neighbors=0\nlldp.swp3.octets=0\nlldp.swp3.too-many=no\n",
                 hears_two("swp4", ("host04", "eth0"), ("x", "z"))]
        show = self.file("show", "".join(ports))
        self.words = [self.plan, f"leaf1:{show}", "--planned-only"]

    def test_lines(self) -> None:
        count = "4 cables: 1 right, 3 wrong"
        lines = ["swp2  wrong: wants host02 eth0, has x y [label C2, rack r1]",
                 "swp3  silent: wants host03 eth0 [label C3, rack r1]",
                 "swp4  extra: x z besides host04 eth0 [label C4, rack r10]"]
        self.assertEqual(run(*self.words).stdout.splitlines(), [*lines, count])

    @unittest.skipIf(jsonschema is None, LACKS_IT)
    def test_json_is_as_its_schema_says(self) -> None:
        told = json.loads(run(*self.words, "--json").stdout)
        jsonschema.validate(told, SCHEMA)
        self.assertEqual([(one["number"], one["kind"], one["details"].get("rack"), one["links"])
                          for one in told["repairs"]],
                         [(1, "wrong", "r1", 1), (2, "silent", "r1", 1), (3, "extra", "r10", 1)])
        self.assertEqual([(one["verdict"], one["repair"], one["line"]) for one in told["ends"]],
                         [("right", None, 2), ("wrong", 1, 3), ("silent", 2, 4),
                          ("extra", 3, 5)])
        self.assertEqual(told["ends"][1]["has"][0]["port_id"], "y")
        self.assertEqual(told["sources"], {"newest": None, "oldest": None, "undated": 1})
        for name in ("repairs", "form"):
            with self.assertRaises(jsonschema.ValidationError):
                jsonschema.validate({key: value for key, value in told.items() if key != name},
                                    SCHEMA)

    @unittest.skipIf(jsonschema is None, LACKS_IT)
    def test_each_rule_of_the_schema(self) -> None:
        """Checks that a document that breaks a rule is refused, so no rule can be left out."""
        panels = self.file("panels", "panel,front,rear\npp1,F1,R1\n")
        plan = self.file("paneled", PLAN + "pp1,R1,host09,eth0,C9,,\nleaf1,swp9,pp1,F1,C8,,\n"
                         "leaf2,swp1,host11,eth0,,,\n")
        page, show = self.folder / "page.html", self.folder / "show"
        show.write_text(show.read_text().replace(neighbor("swp1", "host01", "eth0"), neighbor(
            "swp1", "host01", "p1", "eth0")))
        words = [plan, *self.words[1:], "--panels", panels, "--json", "--html", str(page),
                 "--stale-after", "file:1h"]
        told = json.loads(run(*words).stdout)
        self.assertIn("through pp1 F1, pp1 R1</small>", page.read_text())
        jsonschema.validate(told, SCHEMA)
        self.assertEqual(list(schema_rules.lacking(SCHEMA)), [])
        left = schema_rules.rules_in(SCHEMA)
        for rule, tree in schema_rules.broken(told, SCHEMA, SCHEMA):
            if rule in left:
                left.remove(rule)
                with self.assertRaises(jsonschema.ValidationError):
                    jsonschema.validate(tree, SCHEMA)
        self.assertEqual(left, set())

    def test_junit_and_metrics(self) -> None:
        junit, metrics = self.folder / "junit.xml", self.folder / "audit.prom"
        status = run(*self.words, "--junit", str(junit), "--metrics", str(metrics)).returncode
        root, text = ElementTree.parse(junit).getroot(), metrics.read_text()
        cases = [(one.get("classname"), one.get("name"), [inner.tag for inner in one])
                 for one in root.iter("testcase")]
        self.assertEqual(cases, [("leaf1", "swp1", []), *[("leaf1", f"swp{at}", ["failure"])
                                                          for at in (2, 3, 4)]])
        self.assertEqual((status, root.get("tests"), root.get("failures")), (1, "4", "3"))
        for line in ('lldpa_audit_ends{verdict="right"} 1',
                     'lldpa_audit_ends{verdict="extra"} 1',
                     'lldpa_audit_cables{state="right"} 1', 'lldpa_audit_cables{state="wrong"} 3',
                     'lldpa_audit_repairs{kind="silent"} 1', 'lldpa_audit_repairs{kind="loop"} 0'):
            self.assertIn(line + "\n", text)
        self.assertIn("lldpa_audit_run_timestamp_seconds ", text)
        self.assertIn("lldpa_audit_undated_sources 1\n", text)
        if shutil.which("promtool"):
            done = subprocess.run(["promtool", "check", "metrics"], input=text, text=True,
                                  capture_output=True, check=False)
            self.assertEqual((done.returncode, done.stdout + done.stderr), (0, ""))

    def test_known(self) -> None:
        rows = ("host,port,reason,until,verdict\nleaf1,swp2,new card,9999-12-31,wrong\n"
                "host03,,sends no LLDP,\n")
        known = self.file("known.csv", rows + "leaf1,swp4,old,2020-01-01\n")
        junit = self.folder / "junit.xml"
        ran = run(*self.words, "--known", known, "--junit", str(junit))
        self.assertEqual([(one.get("file"), one.get("line"))
                          for one in ElementTree.parse(junit).getroot().iter("testcase")],
                         [(self.plan, str(line)) for line in range(2, 6)])
        root = ElementTree.parse(junit).getroot()
        why = [one.get("message") for case in root.iter("testcase") for one in case]
        self.assertEqual(why, ["new card", "sends no LLDP",
                               "extra: x z besides host04 eth0 (repair 1)"])
        self.assertEqual(ran.stdout.splitlines()[-1],
                         "4 cables: 1 right, 1 wrong, 2 known")
        self.assertIn("line 4: leaf1 swp4 was excused until 2020-01-01, and is judged", ran.stderr)
        told: Any = json.loads(run(*self.words, "--known", known, "--json").stdout)
        self.assertEqual([(one["verdict"], one["text"]) for one in told["ends"]][1:3],
                         [("known", 'known: "new card"'), ("known", 'known: "sends no LLDP"')])
        self.file("known.csv", rows + "leaf1,swp4,a phone,,extra\n")
        self.assertEqual(run(*self.words, "--known", known).returncode, 0)
        for bad in ("a,b\n", "host,port,reason,until\nleaf1,swp2,,\n",
                    "host,port,reason,until\nleaf1,swp2,x,soon\n"):
            self.assertEqual(run(*self.words, "--known", self.file("bad", bad)).returncode, 2)


class NotJudged(InAFolder):
    """JUnit has one more case, an error or skipped, for the cables that are not judged."""

    def test_counts(self) -> None:
        plan = self.file("plan", f"{situations.TYPED}a,dcim.interface,1,b,dcim.interface,1\n"
                                 "a,dcim.interface,2,pp1,dcim.frontport,F1\n")
        junit = self.folder / "junit.xml"
        for words, kind in ((["--partial"], "skipped"), ([], "error")):
            run(plan, "--host", "a", self.file("a.json", {"1": [{"hostname": "b", "port": "1"}]}),
                "--junit", str(junit), *words)
            root = ElementTree.parse(junit).getroot()
            cases = [(one.get("classname"), [inner.tag for inner in one])
                     for one in root.iter("testcase")]
            self.assertEqual(cases, [("a", []), ("not judged", [kind])])
            for suite in (root, root[0]):
                self.assertEqual([suite.get(name) for name in ("tests", "failures", "errors",
                                                               "skipped")],
                                 ["2", "0", *(["0", "1"] if kind == "skipped" else ["1", "0"])])


class Reports(InAFolder):
    """A JUnit report is written at every status, so that none of yesterday's stays."""

    def setUp(self) -> None:
        super().setUp()
        self.junit = self.folder / "junit.xml"
        self.plan = self.file("plan", f"{HEAD}leaf1,swp1,host01,eth0\n")
        self.list = self.file("leaf1", neighbor("swp1", "host01", "eth0"))
        self.assertEqual(self.reported(self.plan, self.list), (0, []))

    def reported(self, *words: str) -> Tuple[int, List[Sequence[Any]]]:
        """Returns the status of an audit that reports, and each case that is not right: its
        element, file, line and message."""
        ran = run(*words, "--junit", str(self.junit))
        root = ElementTree.parse(self.junit).getroot()
        cases = list(root.iter("testcase"))
        for suite in (root, root[0]):
            tags = [inner.tag for one in cases for inner in one]
            self.assertEqual([suite.get(name) for name in ("tests", "failures", "errors")], [
                f"{number}" for number in (len(cases), tags.count("failure"), tags.count("error"))])
        return ran.returncode, [
            (inner.tag, one.get("file"), one.get("line"), inner.get("message") or inner.text)
            for one in cases for inner in one]

    def test_faults(self) -> None:
        bad = self.file("bad", f"{HEAD}leaf1,swp1,host01\n")
        why = "its peer_port is missing"
        self.assertEqual(self.reported(bad, self.list), (2, [
            ("error", bad, "2", f"{bad}: line 2: {why}")]))
        self.assertEqual(self.reported(self.plan, f"{self.folder}/none"), (2, [
            ("error", f"{self.folder}/none", None,
             f"{self.folder}/none: No such file or directory")]))
        self.assertEqual(self.reported(self.plan, self.list, "--wait", "soon"), (2, [
            ("error", "wrong arguments", None, "wrong arguments: argument --wait: 'soon' is not a "
                                               "time such as 90, 15m, 12h or 1d")]))

    def test_damaged_sources(self) -> None:
        """Checks that a source that cannot be read is no success, even if no planned port is of
        its host."""
        other = self.file("other", "{")
        why = f"{other}: it begins like JSON, but is not valid JSON"
        self.assertEqual(self.reported(self.plan, self.list, other), (3, [
            ("error", other, None, why)]))

    def test_weaker_names(self) -> None:
        other = self.file("leaf1", neighbor("swp1", "host01", "enp3s0", "eth0"))
        self.assertEqual(self.reported(self.plan, other), (0, [
            ("system-out", self.plan, "2", "right by description")]))
        (end,), right_by = [json.loads(run(self.plan, other, "--json").stdout)[name]
                            for name in ("ends", "right_by")]
        self.assertEqual((end["by"], right_by), ("description", {"description": 1}))

    def test_other_files_stay(self) -> None:
        """Checks that an audit that failed replaces no other file: it may be the plan, if the file's
        name was forgotten."""
        before = Path(self.plan).read_text()
        for words in (("--junit", self.plan), (f"--junit={self.plan}", "--none"),
                      (self.plan, "none", "--junit", self.plan)):
            self.assertEqual(run(*words).returncode, 2)
            self.assertEqual(Path(self.plan).read_text(), before)


class Moved(InAFolder):
    """A cable at swp17 instead of swp7 is one repair in each form."""

    def test_each_form(self) -> None:
        plan = self.file("plan", "host,port,peer,peer_port\nleaf1,swp7,host07,eth0\n")
        silent = "lldp.swp7.neighbors=0\nlldp.swp7.octets=0\nlldp.swp7.too-many=no\n"
        page, junit, metrics = (self.folder / name for name in ("page", "junit", "metrics"))
        words = [plan, "--host", "leaf1", "--html", str(page), "--junit", str(junit), "--metrics",
                 str(metrics), self.file("leaf1", silent + neighbor("swp17", "host07", "eth0"))]
        text = "moved: host07 eth0 is at swp17, wants swp7"
        self.assertEqual(run(*words).stdout, f"swp7  {text}\n1 cable: 0 right, 1 wrong\n")
        told = json.loads(run(*words, "--json").stdout)
        if jsonschema is not None:
            jsonschema.validate(told, SCHEMA)
        self.assertEqual([(one["kind"], one["do"], one["text"], one["mends"])
                          for one in told["repairs"]],
                         [("moved", "move the cable to its planned port", text,
                           [{"host": "leaf1", "port": "swp7"}])])
        self.assertEqual([(one["verdict"], one["port"], one["moved_to"], one["repair"])
                          for one in told["ends"]],
                         [("moved", "swp7", {"host": "leaf1", "port": "swp17"}, 1)])
        self.assertEqual(told["unplanned"], 0)
        self.assertEqual(page.read_text().count("<tr id="), 1)
        self.assertIn(f"<td>{text}<td>move the cable to its planned port<td>", page.read_text())
        self.assertEqual(junit.read_text().count("<failure"), 1)
        self.assertIn('lldpa_audit_repairs{kind="moved"} 1\n', metrics.read_text())


class NotLookedAt(InAFolder):
    """What is not looked at is an error in JUnit, or skipped with --partial. JSON and metrics count
    it."""

    def test_each_form(self) -> None:
        plan = self.file("plan", "host,port,peer,peer_port\na,1,b,1\nc,1,d,1\n")
        junit, metrics = self.folder / "junit.xml", self.folder / "metrics"
        words = [plan, self.file("a", neighbor("1", "b", "1")), "--junit", str(junit),
                 "--metrics", str(metrics), "--json"]
        for more, status, errors, skipped in ((["--partial"], 0, "0", "2"), ([], 3, "2", "0")):
            ran = run(*words, *more)
            root = ElementTree.parse(junit).getroot()
            self.assertEqual((ran.returncode, root.get("tests"), root.get("failures"),
                              root.get("errors"), root.get("skipped")),
                             (status, "3", "0", errors, skipped))
            told = json.loads(ran.stdout)
            self.assertEqual(told["cables"], {"planned": 2, "right": 1, "wrong": 0, "known": 0,
                                              "not_looked_at": 1, "not_judged": 0})
            self.assertEqual([one["verdict"] for one in told["ends"]],
                             ["right", "not looked at", "not looked at"])
            self.assertIn('lldpa_audit_cables{state="not looked at"} 1\n', metrics.read_text())


class Failing(InAFolder):
    """An audit whose output cannot be written says so in one line, and ends with status 2."""

    def setUp(self) -> None:
        super().setUp()
        rows = [f"leaf1,swp{at},host{at},eth0\n" for at in range(2000)]
        self.plan = self.file("plan.csv", "".join(["host,port,peer,peer_port\n", *rows]))
        heard = {f"swp{at}": [{"hostname": f"host{at}", "port": "eth0"}] for at in range(2000)}
        self.words = [self.plan, "--host", "leaf1", self.file("leaf1.json", heard)]

    def test_standard_output(self) -> None:
        """Checks that the page is written even if nobody reads the lines or the JSON."""
        page = self.folder / "page.html"
        full = "lldpa-audit: standard output: No space left on device\n"
        closed = "lldpa-audit: standard output: it is closed\n"
        for option, end, said in (("", ">/dev/full", full), ("--json", ">/dev/full", full),
                                  ("", ">&-", closed), ("--json", ">&-", closed),
                                  ("--json", "| head -c 9", "")):
            words = ["bash", "-c", f'set -o pipefail; "$0" "$@" {option} {end}', sys.executable,
                     AUDIT, *self.words, "--html", str(page)]
            ran = subprocess.run(words, capture_output=True, text=True, check=False)
            self.assertEqual((ran.returncode, ran.stderr), (2, said), words[2])
            self.assertTrue(page.read_text().endswith("</html>\n"))
            page.unlink()

    def test_files(self) -> None:
        for option in ("--html", "--junit", "--metrics"):
            for file, why in (("/dev/full", "No space left on device"),
                              (f"{self.folder}/none/file", "No such file or directory"),
                              (str(self.folder), "Is a directory")):
                ran = run(*self.words, option, file)
                self.assertEqual((ran.returncode, ran.stdout, ran.stderr),
                                 (2, "2000 cables: 2000 right, 0 wrong\n",
                                  f"lldpa-audit: {file}: {why}\n"))
        self.assertEqual(sorted(one.name for one in self.folder.iterdir()),
                         ["leaf1.json", "plan.csv"])

    def test_what_is_replaced_is_whole(self) -> None:
        """Checks that a file that cannot be written whole is left as it was, and nothing beside."""
        page = self.file("page.html", "yesterday's")
        whole = ["bash", "-c", 'ulimit -f 8; "$0" "$@" | cat', sys.executable, AUDIT, *self.words,
                 "--junit", page]
        ran = subprocess.run(whole, capture_output=True, text=True, check=False)
        self.assertEqual(ran.stderr, f"lldpa-audit: {page}: File too large\n")
        self.assertEqual((self.folder / "page.html").read_text(), "yesterday's")
        self.assertEqual(sorted(one.name for one in self.folder.iterdir()),
                         ["leaf1.json", "page.html", "plan.csv"])
