"""Tests that lldpa-ctl check says of settings what lldpa-live says of them, without it."""

import os
import re
import subprocess
import tempfile
import unittest
from pathlib import Path

from running_live import OnLinks
from served import CTL

REFUSED = """\
configure lldp tx-interval 0
configure lldp tx-hold x
configure lldp max-neighbors 129
configure ports eth0 lldp status on
configure lldp
configure lldp tx-hold 4 5
configure system hostname "a
configure system description a\x07
configure lldp portidsubtype ifname
configure ports eth0 lldp portdescription text
configure ports eth.5 lldp status rx-only
configure ports
unconfigure lldp vlan-tx
show neighbors
update
\x1b[31m
configure\tlldp tx-hold 101
"""
ACCEPTED = """\
# a comment

configure lldp tx-interval 600\r
  configure lldp  max-neighbors\t32
configure ports eth0 lldp status rx-only
configure system description "a b"
configure system hostname web1.example.com
"""


class Check(unittest.TestCase):
    def setUp(self) -> None:
        folder = tempfile.TemporaryDirectory()
        self.addCleanup(folder.cleanup)
        self.folder = Path(folder.name)
        self.file = self.folder / "settings"

    def check(self, *paths: object) -> "subprocess.CompletedProcess[str]":
        return subprocess.run([CTL, "--control", "/nowhere", "check", *map(str, paths)], check=False,
                              capture_output=True, text=True)

    def says(self, text: str) -> str:
        """Returns what is said of a file with this text, without the file's name."""
        self.file.write_text(text)
        return self.check(self.file).stderr.replace(f"{self.file}:", "")

    def test_what_is_right_is_not_mentioned(self) -> None:
        self.file.write_text(ACCEPTED)
        told = self.check(self.file)
        self.assertEqual((told.returncode, told.stdout, told.stderr), (0, "", ""))

    def test_a_port_that_the_service_may_have_is_right(self) -> None:
        names = [f"swp{number}" for number in range(200)]
        lines = "".join(f"configure ports {name} lldp status tx-only\n" for name in names)
        self.assertEqual(self.says(lines + "configure lldp max-neighbors 128\n"), "")

    def test_each_range_is_the_one_that_is_named(self) -> None:
        ranges = set()
        for what in ("tx-interval", "tx-hold"):
            least, most = re.findall("([0-9]+) to ([0-9]+)", self.says(f"configure lldp {what} x\n"))[0]
            for number in (least, most):
                self.assertEqual(self.says(f"configure lldp {what} {number}\n"), "")
            for number in (int(least) - 1, int(most) + 1):
                self.assertIn(f"out of range: {number} (", self.says(f"configure lldp {what} {number}\n"))
            ranges.add((least, most))
        self.assertEqual(len(ranges), 2)
        most = re.findall("up to ([0-9]+) ", self.says("configure system hostname\n"))[0]
        self.assertEqual(self.says(f"configure system hostname {'a' * int(most)}\n"), "")
        self.assertIn("bad text: ", self.says(f"configure system hostname {'a' * int(most)}b\n"))

    def test_a_folder_and_what_cannot_be_read(self) -> None:
        (self.folder / "a.conf").write_text("configure lldp tx-hold 0\n")
        (self.folder / "b.bak").write_text("configure lldp tx-hold 0\n")
        os.mkfifo(self.folder / "c.conf")
        told = self.check(self.folder, self.folder / "none")
        self.assertEqual((told.returncode, told.stdout), (1, ""))
        self.assertEqual(told.stderr.replace(str(self.folder), ""), """\
lldpa-ctl: /none: no such file or folder
lldpa-ctl: /c.conf: not a regular file
lldpa-ctl: /a.conf:1: configure lldp tx-hold 0: out of range: 0 (intervals that peers keep a frame, 1 to 100)
lldpa-ctl: 3 of the settings and files would not be applied
""")


class AsTheService(OnLinks):
    def test_a_service_refuses_the_same(self) -> None:
        file = self.folder / "a.conf"
        file.write_bytes((REFUSED + ACCEPTED).encode() + b"configure lldp tx-hold " + b" " * 5000 + b"4\n")
        live = self.live("eth0", "--", "--max-neighbors", "128")
        told = subprocess.run([CTL, "--control", "/nowhere", "check", str(file)], check=False,
                              capture_output=True, text=True)
        wanted = live.reload(file)
        self.assertEqual((told.returncode, told.stdout), (1, ""))
        self.assertEqual(sorted(told.stderr.replace("would not be", "were not").splitlines()),
                         sorted(wanted.stderr.splitlines()))
        self.assertEqual(len(told.stderr.splitlines()), len(REFUSED.splitlines()) + 2)
