"""Tests audits that ask lldpa-live through lldpa-ctl. They need both as they are built.

A hostile lldpa-live, or another program in its place, neither blocks an audit nor writes to its
terminal: lldpa-ctl asks, and limits what an answer may be.
"""
import socket
import subprocess
import threading
import time

import rack
from auditing import HEAD, InAFolder, run
from patience import by_the_clock
from served import REPOSITORY, Served, is_built
from support import AnsweringCase

STARTS = "is lldpa-live running? (sudo systemctl start lldpa starts the service)"


@is_built
class Live(InAFolder):
    def audit(self, *words: str) -> "tuple[int, str, str]":
        ran = run(self.plan, "--host", "leaf1", *words)
        return ran.returncode, ran.stdout, ran.stderr

    def test_forms(self) -> None:
        """Checks that the six ports give the same lines as captures do."""
        with Served(rack.PORTS) as served:
            for port in rack.PORTS:
                for octets in rack.frames(port):
                    served.frame(port, octets)
            asked = [f"{REPOSITORY}/bin/lldpa-ctl", "--control", served.path, "--json", "neighbors"]
            told = subprocess.run(asked, capture_output=True, text=True, check=True).stdout
            for words in (f"leaf1:{self.file('ours.json', told)}", f"--live={served.path}"):
                status, out, err = self.audit(words)
                self.assertEqual((status, out.splitlines(), err), (1, rack.LINES, ""))

    def test_wait(self) -> None:
        self.plan = self.file("plan", f"{HEAD}leaf1,swp1,host01,eth0\n")
        with Served(rack.PORTS) as served:
            words = [f"--live={served.path}", "--planned-only", "--wait"]
            begin = time.monotonic()
            self.assertEqual(self.audit(*words, "1")[1],
                             "swp1  silent: wants host01 eth0\n1 cable: 0 right, 1 wrong\n")
            self.assertGreater(time.monotonic() - begin, 1)
            heard = threading.Timer(1, served.frame, ["swp1", rack.lldp_frame("host01", "eth0")])
            heard.start()
            self.assertEqual(self.audit(*words, "50")[:2], (0, "1 cable: 1 right, 0 wrong\n"))
            heard.join()

    def test_nobody_answers(self) -> None:
        none, left = f"{self.folder}/none", f"{self.folder}/left"
        with socket.socket(socket.AF_UNIX) as ended:
            ended.bind(left)
        for word, said in ((f"--live={none}", f"nobody answers at {none}: {STARTS}\n"),
                           (f"--live={left}", f"nobody answers at {left}: {STARTS}\n"),
                           ("--live", "/run/lldpa/control: ")):
            status, out, err = self.audit(word)
            self.assertEqual((status, out), (2, ""), word)
            self.assertIn(f"lldpa-audit: {said}" if "nobody" in said else said, err)
        ran = run("--write-plan", f"{self.folder}/x", f"--live={none}")
        self.assertEqual(ran.returncode, 2)
        self.assertIn("nobody answers at ", ran.stderr)


@is_built
class Asking(AnsweringCase):
    def audited(self, *octets: bytes, pause: float = 0) -> "tuple[int, str, str]":
        """Audits a port by a service with this answer. Returns the status, the lines and the
        messages."""
        plan = self.folder / "plan"
        plan.write_text(f"{HEAD}leaf1,swp1,srv1,eth0\n")
        path = self.answers(*octets, pause=pause)
        ran = run(str(plan), "--host", "leaf1", f"--live={path}")
        return ran.returncode, ran.stdout, ran.stderr.replace(path, "PATH")

    def test_an_answer_in_pieces(self) -> None:
        silent = "swp1  silent: wants srv1 eth0\n1 cable: 0 right, 1 wrong\n"
        self.assertEqual(self.audited(b"=", b"3", b"\nlldp.swp1.neighbors=0\n",
                                      b"lldp.swp1.octets=0\nlldp.swp1.too-many=no\n"),
                         (1, silent, ""))

    def test_what_is_no_answer(self) -> None:
        for octets, why in ((b"hello\n", "not an answer of lldpa-live: 'hello'"),
                            (b"", "lldpa-live has ended the connection"),
                            (b"=2\na\n", "lldpa-live has ended the connection"),
                            (b"=1\na\n", "line 1: expected shows in the order neighbors, "
                             "statistics, chassis, configuration, but found 'a'"),
                            (b"=1\nerror: no permission\n", "no permission"),
                            (b"=1\nerror: \x1b]0;x\x07\n", "\\x1b]0;x\\x07")):
            with self.subTest(octets=octets):
                self.assertEqual(self.audited(octets), (2, "", f"lldpa-audit: {why}\n"))

    @by_the_clock
    def test_one_deadline_holds_for_the_whole_answer(self) -> None:
        began = time.monotonic()
        status, _, said = self.audited(b"=99999\n", *[b"a\n"] * 600, pause=0.1)
        self.assertEqual((status, said), (
            2, "lldpa-audit: PATH: no complete answer within 30 seconds\n"))
        self.assertLess(time.monotonic() - began, 40)
