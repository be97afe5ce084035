"""Tests how files are read: what they may need, and whose fault it is if they cannot be read."""
from pathlib import Path
from typing import Sequence
from unittest import mock

import shapes
from auditing import HEAD, InAFolder, run
from lldpa_audit.seen import files
from lldpa_audit.seen.listing import Listing
from lldpa_audit.seen.tables import Tables
from lldpa_audit.what import What

PLAN = HEAD + "h0,p1,x,e1\nh1,p1,y,e1\n"


def throw(octets: bytes, platform: str = "") -> Listing:
    if b"x" in octets:
        raise KeyError("\udcff\n")
    return Listing({}, True)


class Files(InAFolder):
    def setUp(self) -> None:
        super().setUp()
        self.plan = self.file("plan", PLAN)
        self.whats = [What(f"h{at}", "", self.file(f"seen/h{at}", shapes.napalm(f"p1 {far} e1\n")),
                           True) for at, far in enumerate("xy")]

    def test_file_that_is_missing(self) -> None:
        with self.assertRaises(FileNotFoundError) as raised:
            files.read_file(What("h", "", f"{self.folder}/missing"))
        self.assertEqual(raised.exception.filename, f"{self.folder}/missing")

    def test_file_that_vanishes_from_a_folder(self) -> None:
        found = files.read_file(What("h", "", f"{self.folder}/gone", True))
        self.assertEqual(found.faults if found else [],
                         [f"{self.folder}/gone: No such file or directory"])

    def test_what_a_list_may_need(self) -> None:
        """Checks the seconds and the MB that the manual page promises to lists of these sizes, and
        that a list is as large as all its pieces."""
        self.assertEqual(files.warranted(1 << 20), (5.0, 74))
        self.assertEqual(files.warranted(3 << 20), (7.0, 94))
        most = files.FRONT + 300
        with mock.patch.multiple(files, AT_ONCE=100, MOST_OCTETS=most):
            for size, why in ((most, "not valid JSON"), (most + 1, "it has over 0 MB, the most")):
                found = files.read_file(What("h", "", self.file("large", "{".ljust(size))))
                self.assertIn(why, found.faults[0] if found else "")

    def test_no_memory(self) -> None:
        """Checks that the audit says so, and that no plan and no report is written."""
        why = "there is not enough memory for it"
        end = mock.Mock(side_effect=MemoryError)
        for patch in (mock.patch.object(files, "octets_of", end),
                      mock.patch.object(Tables, "add_ports", end)):
            for words in ((self.plan,), ("--write-plan", f"{self.folder}/new")):
                with patch:
                    ran = run(*words, f"{self.folder}/seen")
                self.assertEqual((ran.returncode, ran.stdout), (2, ""))
                self.assertRegex(ran.stderr, rf"\Alldpa-audit: .*: {why}$")

    def test_files_that_throw(self) -> None:
        """Checks that whatever a file makes the reader throw is the fault of this file alone."""
        with mock.patch.object(files, "read_list", throw):
            ran = run(self.plan, f"{self.folder}/seen")
        why = f"{self.folder}/seen/h0: it cannot be read: \"KeyError: '\\udcff\\n'\""
        self.assertEqual((ran.returncode, ran.stderr), (1, f"lldpa-audit: {why}\n"))
        self.assertEqual(ran.stdout.splitlines(), [
            f"h0 p1  no data: wants x e1 ({why})", "h1 p1  silent: wants y e1",
            "2 cables: 0 right, 1 wrong, 1 not looked at (x)"])

    def test_whole_files(self) -> None:
        found: Sequence[object] = [one and len(one.ports) for one in map(files.read_file,
                                                                         self.whats)]
        self.assertEqual(found, [1, 1])
        Path(self.whats[0].file).write_bytes(b"\0\1capture")
        self.assertIsNone(files.read_file(self.whats[0]))
