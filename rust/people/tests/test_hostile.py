"""Tests that clients withstand a hostile lldpa-live, or another program in its place."""

import os
import subprocess
import unittest
from pathlib import Path

from patience import by_the_clock, eventually
from served import CTL, REPOSITORY, ctl
from support import AnsweringCase
from test_publishing import DOWN

LLDPCTL = str(REPOSITORY / "bin" / "lldpctl")


def rights_of(number: int) -> list[str]:
    """Returns the users and groups of a process."""
    lines = Path(f"/proc/{number}/status").read_text().splitlines()
    return [line for line in lines if line.startswith(("Uid:", "Gid:", "Groups:"))]


class Hostile(AnsweringCase):
    """Tests answers of an lldpa-live that an attacker has taken over."""

    def test_nothing_raw_is_printed(self) -> None:
        for words in (["show", "chassis"], ["live"], ["configure", "x"], ["update"]):
            path = self.answers(b"=1\nlocal-chassis.name=\x1b]0;x\x07\x9b2J\xe2\x80\xae\n")
            told = ctl(path, *words)
            self.assertEqual(told.stdout, "local-chassis.name=\\x1b]0;x\\x07\\x9b2J"
                             "\\xe2\\x80\\xae\n")

    @by_the_clock
    def test_metrics_are_written_although_an_answer_drips(self) -> None:
        path = self.answers(b"=99999999999\n", *[b"live.seconds=1\n"] * 600, pause=0.1)
        ran = ctl(path, "metrics")
        self.assertEqual((ran.stderr, ran.returncode), (
            f"lldpa-ctl: {path}: no complete answer within 10 seconds\n", 1))
        self.assertEqual(ran.stdout.splitlines()[-1], "lldpa_up 0")

    def test_lldpa_live_that_ends_or_answers_nonsense_is_down(self) -> None:
        file = self.folder / "lldpa.prom"
        for answer, said in ((b"", "lldpa-live has ended the connection"),
                             (b"=1\n", "lldpa-live has ended the connection"),
                             (b"hello\n", "not an answer of lldpa-live: 'hello'"),
                             (b"=1\nlive.began=now\n=0\n=0\n", "not an answer of lldpa-live: not "
                              "a time such as 2026-11-23T19:40:00Z: 'now'"),
                             (b"=0\n=1\nx\n=0\n", "not an answer of lldpa-live: line 1: ")):
            told = ctl(self.answers(answer), "metrics", "--output", str(file))
            self.assertEqual((told.returncode, file.read_text()), (1, DOWN), answer)
            self.assertIn(said, told.stderr)
            file.unlink()

    @unittest.skipUnless(os.geteuid() == 0, "root: only root can give up root")
    def test_root_is_given_up_before_anything_is_read(self) -> None:
        nobody = ["\t".join([name, *["65534"] * 4]) for name in ("Uid:", "Gid:")]
        for words in ([CTL, "--control", "PATH", "details"], [CTL, "--control", "PATH", "metrics"],
                      [LLDPCTL, "-u", "PATH"]):
            path = self.answers(b"", pause=60)
            child = subprocess.Popen([path if word == "PATH" else word for word in words],
                                     stdout=subprocess.DEVNULL)
            self.addCleanup(child.wait)
            self.addCleanup(child.kill)
            self.assertTrue(eventually(
                lambda: rights_of(child.pid)[:2] == nobody), rights_of(child.pid))
            self.assertEqual(rights_of(child.pid)[2].split(), ["Groups:"])
