"""Tests what has changed since earlier lists, and hostile names without a plan."""
import csv
import json
import os
import re
import unittest
from pathlib import Path
from typing import Any, Sequence, Tuple

import schema_rules
from auditing import run
from networks import CABLES, VENDORS, Planless
from schemas import LACKS_IT, jsonschema
from situations import napalm

SCHEMA = json.loads(
    (Path(__file__).parents[1] / "lldpa-audit-since.schema.json").read_text())
# names that control a terminal, are invisible, change the direction of writing, are markup, begin
# a command of a pipeline's runner or a spreadsheet's formula, or have blanks at an end
HOSTILE = ("\x1b[2J", "\x07", "a\nb", "\u200b", "\u202eb", "\u2066c", "\u00ad", "\ufeff", "\u2800",
           "caf\udce9", "<b>&", "##vso[x", "::error x", "=1+1", "+1", "@x", "-1", " x", "x ", ",",
           ";", '"', "'", "#x", "\u05d0\u05d1", "e\u0301\u0301\u0301", "x" * 300)
BAD = {letter for name in HOSTILE[:9] for letter in name if not letter.isprintable()
       or letter == "\u2800"} - {"\n"}


class Hostile(Planless):
    """Names of neighbors are never printed raw."""

    def setUp(self) -> None:
        super().setUp()
        heard = {f"p{at}": [{"remote_system_name": name, "remote_port": name,
                             "remote_chassis_id": f"02:00:00:00:00:{at:02x}"}]
                 for at, name in enumerate(HOSTILE)}
        self.hostile = self.file("now/a.json", heard)
        others = [(some[0], f"h{at}") for at, some in enumerate(heard.values())]
        moved = {f"p{at}": [{**one, "remote_system_name": "b", "remote_port": "e"}]
                 for at, (one, _) in enumerate(others)}
        renamed = {f"p{at}": [{**one, "remote_system_name": name}]
                   for at, (one, name) in enumerate(others)}
        self.before = self.file("then/a.json", moved), self.file("named/a.json", renamed)

    def check(self, text: str) -> None:
        """Checks that a text has no letter that is hostile."""
        self.assertEqual(BAD & set(text), set())
        for line in text.splitlines():
            self.assertNotIn("##", line)
            self.assertFalse(line.startswith("::"), line)

    def test_plan(self) -> None:
        """Checks that a plan has the names that can be written, and audits them as right."""
        plan = self.folder / "plan.csv"
        plan.unlink()
        ran = run("--write-plan", str(plan), self.hostile)
        self.check(ran.stdout + ran.stderr)
        self.assertEqual(BAD & set(plan.read_text()), set())
        rows = list(csv.reader(plan.read_text().splitlines()))
        self.assertEqual([row[2] for row in rows[1:]],
                         ["<b>&", "##vso[x", "::error x", ",", ";", '"', "'", "#x", "\u05d0\u05d1"])
        ran = run(str(plan), self.hostile, "--planned-only")
        self.assertEqual((ran.returncode, ran.stdout), (0, "9 cables: 9 right, 0 wrong\n"))

    def test_changes(self) -> None:
        moved, renamed = self.before
        for files in ([moved, self.hostile], [self.hostile, moved], [renamed, self.hostile],
                      [self.hostile, renamed]):
            words = ["--since", *files]
            ran = run(*words)
            self.assertEqual(ran.returncode, 1)
            self.check(ran.stdout + ran.stderr)
            self.assertEqual(len(ran.stdout.splitlines()), len(HOSTILE) + 1)
            ran = run(*words, "--json")
            self.check(ran.stdout + ran.stderr)
            self.assertTrue(ran.stdout.isascii())
            for one in json.loads(ran.stdout)["changes"]:
                self.check(one["text"].replace("##", "").replace("::", ""))

    def test_report(self) -> None:
        """Checks the lines, the page with its pictures, JUnit and JSON of an audit."""
        rows = [f"a,p{at},b,e{at}\n" for at in range(len(HOSTILE))]
        plan = self.file("hostile.csv", "".join(["host,port,peer,peer_port\n", *rows]))
        page, junit = self.folder / "page.html", self.folder / "junit.xml"
        ran = run(plan, self.hostile, "--html", str(page), "--junit", str(junit))
        self.check(ran.stdout + ran.stderr)
        for text in (page.read_text(), junit.read_text()):
            self.assertEqual(BAD & set(text), set())
        self.assertNotIn("<b>&", page.read_text())
        self.check(run(plan, self.hostile, "--json").stdout)


def without_chassis(text: str) -> str:
    """Writes rows of ntc-templates without chassis IDs. Each line has a port, and its neighbor's
    name, Port ID and Port Description."""
    columns = ("local_interface", "neighbor_name", "neighbor_port_id", "neighbor_description")
    return json.dumps([dict(zip(columns, line.split(" "))) for line in text.splitlines()])


class Since(Planless):
    def since(self, before: Any, now: Any, *words: str) -> Tuple[int, Sequence[str], str]:
        """Returns the status, the lines and the errors of a comparison of two networks."""
        folders = [str(self.folder / name) for name in ("then", "now")]
        for folder, lists in zip(folders, (before, now)):
            for old in Path(folder).glob("*"):
                old.unlink()
            for host, text in lists.items():
                self.file(f"{folder}/{host}", text if text.startswith("[") else napalm(text))
        ran = run("--since", *folders, *words)
        return ran.returncode, ran.stdout.splitlines(), ran.stderr

    def test_changes(self) -> None:
        """Checks each kind of change, and that nothing else is told."""
        a, b = "1 x e0 02:00:00:00:00:01\n2 y e0 02:00:00:00:00:02", "1 a 3"
        for before, now, changes, count in (
                ({"a": a}, {"a": a}, [], "2 links, 2 before: no change"),
                ({"a": a}, {"a": f"{a}\n3 z e0"}, ["came: a 3 with z e0"],
                 "3 links, 2 before: 1 came"),
                ({"a": f"{a}\n3 z e0"}, {"a": a}, ["went: a 3 with z e0"],
                 "2 links, 3 before: 1 went"),
                ({"a": a}, {"a": a.replace("2 y", "17 y")}, ["moved: y e0 is at a 17, was at a 2"],
                 "2 links, 2 before: 1 moved"),
                ({"a": a}, {"a": a.replace("y e0", "y e1")},
                 ["moved: a 2 is at y e1, was at y e0"], "2 links, 2 before: 1 moved"),
                ({"a": a}, {"a": a.replace("1 x", "1 Y").replace("2 y", "2 x").replace("Y", "y")},
                 ["moved: a 1 is at y e0, was at x e0", "moved: a 2 is at x e0, was at y e0"],
                 "2 links, 2 before: 2 moved"),
                ({"a": a}, {"a": a.replace("1 x", "3 x").replace("2 y", "1 y").replace("3", "2")},
                 ["moved: x e0 is at a 2, was at a 1", "moved: y e0 is at a 1, was at a 2"],
                 "2 links, 2 before: 2 moved"),
                # each Port Description names the other port
                ({"a": "1 b p1 c p2\n2 b p2 c p1"}, {"a": "1 b p2 c p1\n2 b p1 c p2"},
                 ["moved: b p1 is at a 2, was at a 1", "moved: b p2 is at a 1, was at a 2"],
                 "2 links, 2 before: 2 moved"),
                # the same, without chassis IDs
                ({"a": without_chassis("1 b p1 p2\n2 b p2 p1")},
                 {"a": without_chassis("1 b p2 p1\n2 b p1 p2")},
                 ["moved: b p1 is at a 2, was at a 1", "moved: b p2 is at a 1, was at a 2"],
                 "2 links, 2 before: 2 moved"),
                # the same, and the other host has a list that lacks both ports
                ({"a": "1 b p1 c p2\n2 b p2 c p1", "b": "9 z e0"},
                 {"a": "1 b p2 c p1\n2 b p1 c p2", "b": "9 z e0"},
                 ["moved: b p1 is at a 2, was at a 1", "moved: b p2 is at a 1, was at a 2"],
                 "3 links, 3 before: 2 moved"),
                ({"a": "1 b p1 c p2", "b": "9 z e0"}, {"a": "1 b p1 d p2", "b": "9 z e0"},
                 ["replaced: b p1 at a 1 announces d p1, announced c p1"],
                 "2 links, 2 before: 1 replaced"),
                # two devices of one name, and then a third one
                ({"a": "1 x e0 c1 -\n2 x e0 c2 -"}, {"a": "1 x e0 c2 -\n2 x e0 c1 -"},
                 ["moved: x e0 is at a 1, was at a 2", "moved: x e0 is at a 2, was at a 1"],
                 "2 links, 2 before: 2 moved"),
                ({"a": "1 x e0 c1 -\n2 x e0 c2 -"}, {"a": "1 x e0 c3 -\n2 x e0 c2 -"},
                 ["replaced: x e0 at a 1 announces c3 e0, announced c1 e0"],
                 "2 links, 2 before: 1 replaced"),
                ({"a": "1 x 11 c up"}, {"a": "1 x 12 c up"},
                 ["replaced: x up at a 1 announces c 12, announced c 11"],
                 "1 link, 1 before: 1 replaced"),
                # a list without chassis IDs says nothing of them
                ({"a": "1 x e0 c1"}, {"a": "1 x e0"}, [], "1 link, 1 before: no change"),
                ({"a": a}, {"a": a.replace("y", "z")}, ["renamed: y is now z, at 1 link"],
                 "2 links, 2 before: 1 renamed"),
                # another device with another name
                ({"a": a}, {"a": a.replace("y e0 02:00:00:00:00:02", "z e0 02:00:00:00:00:03")},
                 ["moved: a 2 is at z e0, was at y e0"], "2 links, 2 before: 1 moved"),
                ({"a": "1 x e0\n2 x e1"}, {"a": "1 z e0\n2 z e1"},
                 ["renamed: x is now z, with another chassis ID, at 2 links"],
                 "2 links, 2 before: 1 renamed"),
                # a port of the same host is looked for first
                ({"a": "1 c 2", "d": "5 c 1"}, {"a": "1 c 1", "d": ""},
                 ["moved: a 1 is at c 1, was at c 2", "went: d 5 with c 1"],
                 "1 link, 2 before: 1 moved, 1 went"),
                # one end sees a link that both saw before, and a port has another name there
                ({"a": "3 b 02:00:00:00:00:09 c 1", "b": b}, {"a": "3 b 02:00:00:00:00:09 c 1"}, [],
                 "1 link, 1 before: no change; 0 not compared (b)"),
                ({"a": "3 b 1", "b": b}, {"a": "", "b": ""}, ["went: a 3 with b 1"],
                 "0 links, 1 before: 1 went"),
                # a host with data at one of the two times only
                ({"a": a, "b": "4 z e0"}, {"a": a}, [],
                 "2 links, 3 before: no change; 1 not compared (b)"),
                ({"a": a}, {"a": a, "b": "4 z e0", "c": "5 z e1"}, [],
                 "4 links, 2 before: no change; 2 not compared (b, c)")):
            with self.subTest(before=before, now=now):
                status, lines, said = self.since(before, now)
                self.assertEqual((status, [re.sub("; sources .*", "", line) for line in lines],
                                  said), (1 if changes else 3 if "not compared" in count else 0,
                                          [*changes, count], ""))

    def test_what_is_not_compared(self) -> None:
        """Checks that links that cannot be compared need new lists, except in a part."""
        seen_by_both = {"a": "1 b 2", "b": "2 a 1"}
        for before, now, status in (({"a": "1 x e0"}, {"a": "1 x e0"}, 0),
                                    (seen_by_both, seen_by_both, 0),
                                    (seen_by_both, {"a": "1 b 2"}, 3),
                                    ({"a": "1 b 2"}, seen_by_both, 3),
                                    ({"a": "1 x e0", "b": ""}, {"a": "1 x e0"}, 3),
                                    ({"a": "1 x e0", "b": "1 y e0"}, {"a": "1 x e0"}, 3),
                                    ({"a": "1 x e0"}, {"a": "1 x e0", "b": "1 y e0"}, 3)):
            self.assertEqual(self.since(before, now)[0], status)
            self.assertEqual(self.since(before, now, "--partial")[0], 0)

    def test_three_vendors(self) -> None:
        """Checks one exchanged cable, in lists of three vendors at both times."""
        (one, two), (three, four) = CABLES[1], CABLES[3]
        then = self.lists("then", CABLES, VENDORS)
        now = self.lists("now", [CABLES[0], (one, four), CABLES[2], (three, two), CABLES[4]],
                         {"leaf1": "napalm", "spine1": "textfsm", "spine2": "walk"})
        self.assertEqual(run("--since", then, then).returncode, 0)
        ran = run("--since", then, now)
        self.assertEqual((ran.returncode, ran.stdout.splitlines()[:2]), (1, [
            "moved: srv1 eth0 is at spine1 Ethernet1/2, was at leaf1 Ethernet10",
            "moved: srv2 eno1 is at leaf1 Ethernet10, was at spine1 Ethernet1/2"]))

    @unittest.skipIf(jsonschema is None, LACKS_IT)
    def test_json(self) -> None:
        end = {name: {"host": name, "port": port} for name, port in (("y", "e0"), ("z", "e0"))}
        status, lines, _ = self.since({"a": "1 x e0 c\n2 y e0 d", "b": "1 q 1"},
                                      {"a": "1 w e0 c\n3 y e0 d\n4 z e0"}, "--json",
                                      "--stale-after", "file:1h")
        told = json.loads("\n".join(lines))
        jsonschema.validate(told, SCHEMA)
        self.assertEqual((status, told["links"], told["hosts_not_compared"]),
                         (1, {"before": 3, "now": 3, "not_compared": 1}, ["b"]))
        self.assertEqual([(one["kind"], one["before"], one["now"], one["host_before"],
                           one["host_now"]) for one in told["changes"]], [
            ("renamed", [[{"host": "a", "port": "1"}, {"host": "x", "port": "e0"}]],
             [[{"host": "a", "port": "1"}, {"host": "w", "port": "e0"}]], "x", "w"),
            ("came", [], [[{"host": "a", "port": "4"}, end["z"]]], None, None),
            ("moved", [[end["y"], {"host": "a", "port": "2"}]],
             [[end["y"], {"host": "a", "port": "3"}]], None, None)])
        self.assertEqual(list(schema_rules.lacking(SCHEMA)), [])
        left = schema_rules.rules_in(SCHEMA)
        for rule, tree in schema_rules.broken(told, SCHEMA, SCHEMA):
            left.discard(rule)
            with self.assertRaises(jsonschema.ValidationError):
                jsonschema.validate(tree, SCHEMA)
        self.assertEqual(left, set())
        for name in SCHEMA["required"]:
            with self.assertRaises(jsonschema.ValidationError):
                jsonschema.validate({key: value for key, value in told.items() if key != name},
                                    SCHEMA)

    def test_sources(self) -> None:
        """Checks that a damaged list of today does not mean an unplugged cable, and that old lists
        are old."""
        status, lines, said = self.since({"a": "1 x e0", "b": "1 y e0"}, {"a": "{", "b": "1 y e0"})
        self.assertEqual((status, [line.partition("; sources")[0] for line in lines]),
                         (3, ["1 link, 2 before: no change; 1 not compared (a)"]))
        self.assertIn(f"{self.folder}/now/a: ", said)
        os.utime(self.folder / "then" / "b", (0, 0))
        self.assertEqual(self.since({"a": "1 x e0"}, {"a": "1 x e0"}, "--stale-after",
                                    "file:1h")[0], 0)
        os.utime(self.folder / "now" / "a", (0, 0))
        ran = run("--since", str(self.folder / "then"), str(self.folder / "now"), "--stale-after",
                  "file:1h")
        self.assertIn("1 not compared (a)", ran.stdout)
