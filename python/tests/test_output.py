"""Tests that a closed or full standard output is reported and gives status 1."""

import os
import subprocess
import sys
from typing import Sequence, Tuple

from made_captures import LLDP, pcap, whole
from patience import HANGS
from served import CTL, Served, is_built
from support import CAPTURE, FilesCase

CLOSED = "standard output: it is closed\n"
FULL = "standard output: No space left on device\n"
BY_PYTHON = [sys.executable, CAPTURE]


def run_with(output: str, words: Sequence[str]) -> Tuple[int, str]:
    """Returns the status and the messages of a program with this redirection of standard output."""
    ran = subprocess.run(["bash", "-c", f'"$@" {output}', "bash", *words],
                         stderr=subprocess.PIPE, stdin=subprocess.DEVNULL, check=False,
                         timeout=HANGS)
    return ran.returncode, ran.stderr.decode()


def unread(words: Sequence[str]) -> Tuple[int, str]:
    """Returns the status and the messages of a program whose output nobody reads. Checks that the
    messages have no traceback, and nothing about the output."""
    reader, writer = os.pipe()
    os.close(reader)
    ran = subprocess.run(words, stdout=writer, stderr=subprocess.PIPE,
                         check=False, timeout=HANGS)
    os.close(writer)
    said = ran.stderr.decode()
    assert "standard output" not in said and "Traceback" not in said, said
    return ran.returncode, said


class Output(FilesCase):
    def setUp(self) -> None:
        super().setUp()
        self.capture = self.file(pcap([whole(LLDP)] * 5000))

    def test_capture(self) -> None:
        for words in ([self.capture], ["--ports", self.capture], ["--help"]):
            for output, told in ((">&-", CLOSED), (">/dev/full", FULL)):
                said = run_with(output, [*BY_PYTHON, *words])
                self.assertEqual(said, (1, f"lldpa-capture: {told}"))

    @is_built
    def test_ctl(self) -> None:
        with Served() as served:
            for words in ([], ["show", "neighbors"], ["metrics"], ["--json"]):
                for output, told in ((">&-", CLOSED), (">/dev/full", FULL)):
                    said = run_with(output, [CTL, "--control", served.path, *words])
                    self.assertEqual(said, (1, f"lldpa-ctl: {told}"), (words, output))
                self.assertEqual(unread([CTL, "--control", served.path, *words])[0], 1)

    def test_who_reads_it_has_gone(self) -> None:
        self.assertEqual(unread([*BY_PYTHON, self.capture])[0], 1)

    def test_errors_that_nobody_takes(self) -> None:
        for errors in ("2>&-", "2>/dev/full"):
            for output in (">&-", ">/dev/full"):
                ran = run_with(f"{output} {errors}", [*BY_PYTHON, self.capture])
                self.assertEqual(ran, (1, ""))
        self.assertEqual(run_with(">/dev/null <&-", [*BY_PYTHON, self.capture]), (0, ""))
