"""Tests plans that are written from lists of neighbors."""
import itertools
import random
import subprocess
import sys
from pathlib import Path
from typing import Iterator

import vendors
from auditing import AUDIT, neighbor, run
from lldpa_audit.names import End
from lldpa_audit.writing import Row, write_new
from networks import CABLES, HEADER, VENDORS, Planless


class Plans(Planless):
    ROWS = ["leaf1,Ethernet2,spine1,Ethernet1/1,by both ends",
            "leaf1,Ethernet3,spine2,xe-0/0/1,by both ends",
            "leaf1,Ethernet10,srv1,eth0,by one end", "spine1,Ethernet1/2,srv2,eno1,by one end",
            "spine2,xe-0/0/2,srv2,eno2,by one end"]

    def test_three_vendors(self) -> None:
        """Checks that a plan that was written from a network audits it as right, and that an audit
        by it tells of one exchanged cable, for lists of any three vendors."""
        (one, two), (three, four) = CABLES[1], CABLES[3]
        exchanged = [CABLES[0], (one, four), CABLES[2], (three, two), CABLES[4]]
        for number, forms in enumerate(itertools.permutations(sorted(vendors.FORMS), 3)):
            if number % 90:
                continue
            with self.subTest(forms=forms):
                of_hosts = dict(zip(VENDORS, forms))
                right = self.lists(f"right{number}", CABLES, of_hosts)
                self.assertEqual(self.written(right), self.ROWS)
                self.assertEqual(self.audited(right), (0, ["5 cables: 5 right, 0 wrong"]))
                status, lines = self.audited(self.lists(f"wrong{number}", exchanged, of_hosts))
                self.assertEqual((status, lines), (1, [
                    "leaf1 Ethernet10  swapped with spine1 Ethernet1/2: wants srv1 eth0, has srv2 "
                    "eno1 [seen by one end]", "5 cables: 3 right, 2 wrong"]))

    def test_random_networks(self) -> None:
        """Checks plans of networks in which each host may have a list."""
        dice = random.Random(8)
        for number in range(8):
            ends = [(f"sw{host}", f"swp{port}") for host in range(8) for port in range(1, 9)]
            dice.shuffle(ends)
            cables = [(one, other) for one, other in zip(ends[::2], ends[1::2])
                      if one[0] != other[0]]
            forms = {f"sw{host}": dice.choice(sorted(vendors.FORMS)) for host in range(8)
                     if host == 0 or dice.random() < 0.7}
            seen = [[end[0] in forms for end in cable] for cable in cables]
            folder = self.lists(f"lists{number}", cables, forms)
            rows = self.written(folder)
            found = {frozenset([(a, b), (c, d)]): sure for a, b, c, d, sure in
                     (row.split(",") for row in rows)}
            self.assertEqual(found, {
                frozenset(cable): "by both ends" if all(some) else "by one end"
                for cable, some in zip(cables, seen) if any(some)})
            self.assertEqual(rows, sorted(rows))
            count = len(rows)
            self.assertEqual(self.audited(folder),
                             (0, [f"{count} cables: {count} right, 0 wrong"]))

    def test_what_is_left_out(self) -> None:
        """Checks ports that seem to have several links, and names that a plan cannot have."""
        plan, several = "is left out", "is seen in several links"
        cannot = "a plan cannot have the name"
        for lists, rows, said in (
                ({"a": "1 b 1\n2 b 1"}, [], [f"a 1 with b 1 {plan}: b 1 {several}",
                                             f"a 2 with b 1 {plan}: b 1 {several}"]),
                ({"a": "1 b 1\n2 b 1", "b": "1 a 2"}, ["a,2,b,1,by both ends"],
                 [f"a 1 with b 1 {plan}: b 1 {several}"]),
                ({"a": "1 b 1\n1 c 1\n2 d 1"}, ["a,2,d,1,by one end"],
                 [f"a 1 with b 1 {plan}: a 1 {several}", f"a 1 with c 1 {plan}: a 1 {several}"]),
                ({"a": "1 b 1\n1 c 1", "b": "1 a 1\n1 c 1", "c": "1 a 1\n1 b 1\n2 d 1"},
                 ["c,2,d,1,by one end"],
                 [f"a 1 with b 1 {plan}: a 1 {several}", f"a 1 with c 1 {plan}: a 1 {several}",
                  f"b 1 with c 1 {plan}: b 1 {several}"]),
                ({"a": "1 b 1\n1 b 1\n2 c 1", "b": "1 a 1"}, ["a,2,c,1,by one end"],
                 [f"a 1 with b 1 {plan}: a 1 {several}"] * 2),
                ({"b": "1 a 1\n1 a 1\n2 c 1", "a": "1 b 1"}, ["b,2,c,1,by one end"],
                 [f"a 1 with b 1 {plan}: a 1 {several}"] + [
                     f"b 1 with a 1 {plan}: b 1 {several}"] * 2),
                ({"a": "1 a 1\n2 c 1"}, ["a,2,c,1,by one end"],
                 [f"a 1 with a 1 {plan}: a port hears itself"]),
                ({"a": "".join(f"{at} b =1\n" for at in range(1, 6)) + "6 c 1"},
                 ["a,6,c,1,by one end"],
                 [*(f"a {at} with b =1 {plan}: {cannot} =1" for at in (1, 2, 3)),
                  "2 more links are left out"])):
            with self.subTest(lists=lists):
                for old in self.folder.glob("lists/*"):
                    old.unlink()
                folder = self.texts("lists", lists)
                if rows:
                    notes = "".join(f"lldpa-audit: {line}\n" for line in said)
                    self.assertEqual(self.written(folder, said=notes), rows)
                    continue
                ran = run("--write-plan", str(self.folder / "none.csv"), folder)
                self.assertEqual((ran.returncode, ran.stderr.splitlines()[-1]), (
                    2, "lldpa-audit: no link was seen, so no plan is written"))
                self.assertFalse((self.folder / "none.csv").exists())

    def test_names_of_neighbors(self) -> None:
        """Checks which name of a neighbor without a list is written: one that an audit finds."""
        for text, rows in (
                # a Port ID that is a MAC address has a readable description
                ("1 srv 02:00:00:00:00:01 02:00:00:00:00:01 eth0",
                 ["a,1,srv,eth0,by one end"]),
                # two ports with the same description are named by their Port IDs
                ("1 srv 02:00:00:00:00:01 c uplink\n2 srv 02:00:00:00:00:02 c uplink",
                 ["a,1,srv,02:00:00:00:00:01,by one end", "a,2,srv,02:00:00:00:00:02,by one end"]),
                # the description of one port is the Port ID of another
                ("1 srv 511 c 512\n2 srv 512 c 511",
                 ["a,1,srv,511,by one end", "a,2,srv,512,by one end"]),
                # two devices of one name are named by their chassis IDs
                ("1 phone p1 02:00:00:00:00:01\n2 phone p1 02:00:00:00:00:02",
                 ["a,1,02:00:00:00:00:01,p1,by one end", "a,2,02:00:00:00:00:02,p1,by one end"])):
            with self.subTest(text=text):
                folder = self.texts("lists", {"a": text})
                self.assertEqual(self.written(folder), rows)
                status, (line,) = self.audited(folder)
                self.assertEqual(status, 0)
                self.assertRegex(line, rf"^{len(rows)} cables?: .*, 0 wrong$")

    def test_spellings(self) -> None:
        """Checks that a note says which options may join what two ends see."""
        folder = self.texts("lists", {"a": "Ethernet1 B.lab Gi1/0/1\n2 c 1",
                                      "b": "GigabitEthernet1/0/1 a Et1"})
        note = ("lldpa-audit: B.lab Gi1/0/1 may be b GigabitEthernet1/0/1, and 1 more neighbor "
                "may be a port here: see --ignore-case, --short-names, --vendor-names\n")
        self.assertEqual(len(self.written(folder, said=note)), 3)
        options = ["--ignore-case", "--short-names", "--vendor-names"]
        self.assertEqual(self.written(folder, *options), [
            "a,2,c,1,by one end", "a,Ethernet1,b,GigabitEthernet1/0/1,by both ends"])
        self.assertEqual(self.audited(folder, *options), (0, ["2 cables: 2 right, 0 wrong"]))

    def test_two_chassis_of_a_listed_host(self) -> None:
        """Checks that a host with a list keeps its name, whatever chassis IDs are heard for it."""
        folder = self.texts("lists", {
            "a": "1 b p1 02:00:00:00:00:01 -\n2 d e0", "b": "9 x y",
            "c": "1 b p1 02:00:00:00:00:02 -"})
        note = "".join(f"lldpa-audit: {end} with b p1 is left out: b p1 is seen in several links\n"
                       for end in ("a 1", "c 1"))
        self.assertEqual(self.written(folder, said=note),
                         ["a,2,d,e0,by one end", "b,9,x,y,by one end"])

    def test_aggregates(self) -> None:
        """Checks links whose ends name their aggregates in place of their ports."""
        tlv = {"aggregate": 7}
        self.file("lists/a", "".join(neighbor(f"swp{at}", "b", "bond0", **tlv) for at in (1, 2)))
        self.file("lists/b", "".join(neighbor(f"eth{at}", "a", f"swp{at}") for at in (1, 2)))
        folder = str(self.folder / "lists")
        self.assertEqual(self.written(folder, "--vendor-names"), [
            "a,swp1,b,eth1,by both ends", "a,swp2,b,eth2,by both ends"])
        self.assertEqual(self.audited(folder, "--vendor-names"),
                         (0, ["2 cables: 2 right, 0 wrong"]))


class Files(Planless):
    def setUp(self) -> None:
        super().setUp()
        self.seen = self.lists("lists", CABLES, VENDORS)

    def test_a_plan_is_not_overwritten(self) -> None:
        mine = self.file("mine.csv", "looked over")
        for file, why in ((mine, "it exists already, and is not overwritten"),
                          (str(self.folder), "it exists already, and is not overwritten"),
                          ("/dev/full", "No space left on device"),
                          (f"{self.folder}/none/plan", "No such file or directory")):
            ran = run("--write-plan", file, self.seen)
            self.assertEqual((ran.returncode, ran.stdout, ran.stderr),
                             (2, "", f"lldpa-audit: {file}: {why}\n"))
        self.assertEqual(Path(mine).read_text(), "looked over")
        ran = subprocess.run([sys.executable, AUDIT, "--write-plan", "/dev/stdout", self.seen],
                             capture_output=True, text=True, check=False)  # to a pipe
        self.assertEqual((ran.returncode, ran.stdout.splitlines()[:-1]), (0, [HEADER, *Plans.ROWS]))

    def test_a_full_disk(self) -> None:
        """Checks that a plan that cannot be written whole is removed."""
        plan = self.folder / "plan"
        many = {f"p{at}": [{"hostname": f"host{at}", "port": "eth0"}] for at in range(2000)}
        words = ["bash", "-c", 'ulimit -f 8; "$0" "$@" | cat', sys.executable, AUDIT,
                 "--write-plan", str(plan), self.file("many.json", many)]
        ran = subprocess.run(words, capture_output=True, text=True, check=False)
        self.assertEqual((ran.stdout, ran.stderr), ("", f"lldpa-audit: {plan}: File too large\n"))
        self.assertFalse(plan.exists())

    def test_an_interrupt(self) -> None:
        """Checks that half a plan does not stay if the program is interrupted."""
        plan = self.folder / "half.csv"
        row = Row(End("a", "1"), End("b", "1"), "by both ends")

        def rows() -> Iterator[Row]:
            yield row
            raise KeyboardInterrupt
        with self.assertRaises(KeyboardInterrupt):
            write_new(str(plan), rows())
        self.assertFalse(plan.exists())
        write_new(str(plan), [row])
        with self.assertRaises(FileExistsError):
            plan.unlink()
            plan.symlink_to("nowhere")
            write_new(str(plan), [row])
        self.assertTrue(plan.is_symlink())

    def test_damaged_lists(self) -> None:
        broken = self.file("lists/spine9.json", "{")
        plan = str(self.folder / "plan")
        ran = run("--write-plan", plan, self.seen)
        self.assertEqual(ran.returncode, 3)
        self.assertIn(f"lldpa-audit: {broken}: ", ran.stderr)
        self.assertEqual(Path(plan).read_text().splitlines()[1:], Plans.ROWS)
        self.file("lists/leaf1.txt", (self.folder / "lists" / "leaf1.json").read_text())
        self.assertEqual(run("--write-plan", f"{plan}2", self.seen).returncode, 2)

    def test_what_is_refused(self) -> None:
        for words, said in (
                ("--write-plan x --partial lists", "--write-plan cannot be given with --partial"),
                ("--write-plan x --json lists", "--write-plan cannot be given with --json"),
                ("--write-plan x --since y lists", "--write-plan cannot be given with --since"),
                ("--since lists --html x lists", "--since cannot be given with --html"),
                ("--since lists --planned-only lists",
                 "--since cannot be given with --planned-only"),
                ("--since lists", "nothing to audit: give captures"),
                ("--since none lists", "none: No such file or directory"),
                ("--write-plan x none", "none: No such file or directory"),
                ("--write-plan  lists", "the name of a file is missing"),
                ("", "the following arguments are required: PLAN")):
            ran = run(*(words.split(" ") if words else ()), folder=str(self.folder))
            self.assertEqual((ran.returncode, ran.stdout), (2, ""), words)
            self.assertIn(said, ran.stderr)
        self.assertFalse((self.folder / "x").exists())
