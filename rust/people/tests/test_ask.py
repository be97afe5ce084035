"""Tests that lldpa-ctl answers soon, and how little it takes whatever answers."""

import os
import socket
import subprocess
import time

from loads import figure
from running_live import OnLinks, is_built
from patience import SECONDS, by_the_clock, eventually, mostly
from served import CTL, ctl, numbered
from support import AnsweringCase

MOST_KIB = 140 * 1024  # less than an answer of 128 MB


def asked(path: str, line: str) -> "subprocess.CompletedProcess[str]":
    """Asks a question, and returns the output and the status."""
    return ctl(path, *line.split())


class Asked(OnLinks):
    def test_the_answer_is_printed(self) -> None:
        live = self.live("eth0", "--", "--receive-only")
        self.peer().send(numbered(1))
        shown = live.ask("show chassis")
        told = asked(live.control, "show chassis")
        self.assertEqual((told.returncode, told.stderr), (0, ""))
        self.assertEqual(told.stdout.splitlines(), shown)
        told = asked(live.control, "configure lldp tx-hold 5")
        self.assertEqual((told.returncode, told.stdout, told.stderr), (0, "", ""))
        self.assertIn("configuration.tx-hold=5", live.ask("show configuration"))

    def test_it_takes_little_more_than_its_start(self) -> None:
        """Compares with `--version` in turns, since a busy machine delays both. By hand on a quiet
        one, an answer takes 2 to 3 ms."""
        live = self.live("eth0", "--", "--receive-only")
        self.peer().send(numbered(1, 60_000))
        self.assertTrue(eventually(lambda: live.neighbors("eth0")))
        for words in (["show", "neighbors"], ["details"], ["--json", "neighbors"]):
            starts, answers = [], []
            for _ in range(21):
                starts.append(self.seconds(live.control, "--version"))
                answers.append(self.seconds(live.control, *words))
            figure(self, f"{1000 * mostly(answers):.1f} ms for {' '.join(words)},"
                         f" {1000 * mostly(starts):.1f} for --version")
            self.assertLess(mostly(answers), 4 * mostly(starts))

    def seconds(self, path: str, *words: str) -> float:
        """Runs lldpa-ctl with these words and returns how long it took."""
        began = time.monotonic()
        self.assertEqual(ctl(path, *words).returncode, 0)
        return time.monotonic() - began


@is_built
class Unanswered(AnsweringCase):
    """Tests questions that nobody answers, or that another program answers."""

    def test_nobody_is_there(self) -> None:
        path = str(self.folder / "none")
        told = asked(path, "live")
        self.assertEqual((told.returncode, told.stdout), (1, ""))
        self.assertIn(path, told.stderr)

    @by_the_clock
    def test_a_queue_that_is_full_is_not_waited_for(self) -> None:
        with socket.socket(socket.AF_UNIX) as listening, socket.socket(socket.AF_UNIX) as first:
            path = str(self.folder / "full")
            listening.bind(path)
            listening.listen(0)
            first.connect(path)
            began = time.monotonic()
            self.assertEqual(asked(path, "live").returncode, 1)
            self.assertLess(time.monotonic() - began, 33)

    def test_a_hostile_answer_costs_no_more_than_it_may_have(self) -> None:
        line = b"\x1b" * 999_999 + b"\n"
        for answer in ([b"=120\n", *[line] * 120], [b"=9\n", *[line[:-1]] * 300],
                       [b"=60000000\n", *[b"\n" * 1_000_000] * 60]):
            path = self.answers(*answer)
            with open(os.devnull, "wb") as none:
                asking = subprocess.Popen([CTL, "--control", path, "live"], stdout=none,
                                          stderr=none)
                _, _, used = os.wait4(asking.pid, 0)
            figure(self, f"{used.ru_maxrss / 1024:.0f} MB for {sum(map(len, answer)) >> 20} MB")
            self.assertLess(used.ru_maxrss, MOST_KIB)
            asking.returncode = 0  # it was waited for above

    def test_no_control_sequence_is_printed(self) -> None:
        told = asked(self.answers(b"=1\nx=\x1b]0;x\x07\x9b\n", pause=SECONDS), "live")
        self.assertEqual(told.stdout, "x=\\x1b]0;x\\x07\\x9b\n")
