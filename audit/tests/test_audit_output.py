"""Tests the status of lldpa-audit if its output is closed, full, or not read to the end."""
import os
import unittest
from pathlib import Path

import rack
from auditing import AUDIT, InAFolder
from lldpa_audit.report.files import write
from test_output import CLOSED, FULL, run_with, unread


class Output(InAFolder):
    def setUp(self) -> None:
        super().setUp()
        self.audit = [AUDIT, "--host", "leaf1", self.plan, self.file("show", rack.text_of_show())]

    def test_audit(self) -> None:
        front = "lldpa-audit: "
        for words in (self.audit, [*self.audit, "--json"], [AUDIT, "--help"]):
            for output, told in ((">&-", CLOSED), (">/dev/full", FULL)):
                status, said = run_with(output, words)
                self.assertEqual((status, said), (2, front + told), (words, output))

    def test_audit_whose_files_cannot_be_written(self) -> None:
        for page, why in ((f"{self.folder}/none/page.html", "No such file or directory"),
                          ("/dev/full", "No space left on device")):
            status, said = run_with(">/dev/null", [*self.audit, "--html", page])
            self.assertEqual((status, said.splitlines()[-1]), (2, f"lldpa-audit: {page}: {why}"))

    def test_a_link_that_another_user_left(self) -> None:
        page, other = self.folder / "page.html", self.file("other", "theirs")
        (self.folder / f".page.html.{os.getpid()}").symlink_to(other)
        page.symlink_to(other)
        write(str(page), ["ours"])
        self.assertEqual((page.read_text(), Path(other).read_text()), ("ours", "theirs"))
        self.assertEqual(page.lstat().st_mode & 0o777, 0o644)

    @unittest.skipUnless(os.geteuid() == 0, "root: it makes a link of another user")
    def test_a_link_of_another_user_to_a_device(self) -> None:
        page = self.folder / "page.html"
        page.symlink_to(os.devnull)
        os.lchown(page, 65534, -1)
        write(str(page), ["ours"])
        self.assertEqual(page.read_text(), "ours")

    def test_who_reads_it_has_gone(self) -> None:
        self.assertEqual(unread(self.audit)[0], 2)

    def test_errors_that_nobody_takes(self) -> None:
        for errors in ("2>&-", "2>/dev/full"):
            for output in (">&-", ">/dev/full"):
                self.assertEqual(run_with(f"{output} {errors}", self.audit), (2, ""))
            self.assertEqual(run_with(f">/dev/null {errors}", self.audit), (1, ""))
            self.assertEqual(run_with(f">/dev/null {errors}", [AUDIT]), (2, ""))
