"""Tests that Python programs can ask lldpa-live through lldpa-ctl."""

import json
import os
import stat
import unittest
from pathlib import Path
from tempfile import TemporaryDirectory

from lldpa import Ctl, CtlFault, LldpaFault, read_show
from served import CTL, LIVE_LINES, REPOSITORY, Program, frame, is_built, numbered, tlv

# the neighbor that docs/PROGRAMS.md shows as JSON
OF_PAGE = ("0180c200000e02000000000a88cc02070402005e0053020405057377703106020078080675706c696e6b"
           "0a07636166c3a92d310e0400140004100c0501c0000202020000000700fe060080c2010078fe0d0080c203"
           "0078066f6666696365fe090011220568656c6c6f0000")
CAME = b"live.eth0.since.1=2026-11-23T19:45:02Z mac=02:00:5e:00:53:02 ifname=swp1"

@is_built
class Asked(Program):
    def setUp(self) -> None:
        super().setUp()
        self.ctl = Ctl(self.served.path, CTL)
        vlan = tlv(127, bytes.fromhex("0080c2010078"))
        self.served.frame("eth0", numbered(1, 120, tlv(5, "café".encode()), vlan))
        self.served.frame("eth1", frame(b"\x07\xff\x85", b"\x05p2", 60, tlv(5, b"\xc2\x85\xe9")))

    def test_neighbors_are_objects(self) -> None:
        one, two = self.ctl.neighbors()
        self.assertEqual((one["name"], one["vlan"]["pvid"], one["ttl"]), ("café", 120, 120))
        self.assertEqual((two["name"], two["octets"]), ("\\xc2\\x85\\xe9", {"name": "c285e9"}))
        self.assertEqual(self.ctl.neighbors("eth1"), [two])
        self.assertEqual(self.ctl.neighbors("eth1", "eth0"), [one, two])
        self.served.frame("eth1", frame(b"\x07\xff\x85", b"\x05p2", 0))
        self.assertEqual(self.ctl.neighbors("eth1"), [])

    def test_other_answers(self) -> None:
        told = self.ctl.object("statistics", "summary")
        self.assertEqual(told["summary"]["received"], 2)
        self.assertEqual(self.ctl.object("update"), {})
        lines = self.ctl.lines("show", "neighbors")
        self.assertEqual(lines, self.served.ask(b"show neighbors"))
        self.assertEqual([one.name for one in read_show(lines).neighbors],
                         ["caf\\xc3\\xa9", "\\xc2\\x85\\xe9"])
        self.assertEqual(self.ctl.lines("configure", "system", "hostname", "a b"), [])
        self.assertIn("local-chassis.name=a b", self.ctl.lines("show", "chassis"))

    def test_the_page_shows_what_is_printed(self) -> None:
        page = (REPOSITORY / "docs" / "PROGRAMS.md").read_text()
        shown = page.partition("Some of its keys, one on a line:\n\n```\n")[2].partition("```")[0]
        self.served.frame("eth0", numbered(1, 0))
        self.served.frame("eth0", bytes.fromhex(OF_PAGE))
        self.served.live_lines = [*LIVE_LINES, CAME]
        one, = self.ctl.neighbors("eth0")
        lines = [f'"{key}": {json.dumps(one[key])}' for key in one]
        self.assertEqual(len(shown.splitlines()), 10)
        for line in shown.splitlines():
            self.assertIn(line, lines)

    def test_what_is_refused(self) -> None:
        for words, status, text in (
                (["show", "neighbors", "eth7"], 1, "no such port: eth7 (eth0, eth1)"),
                (["configure", "lldp", "tx-hold", "0"], 1,
                 "out of range: 0 (intervals that peers keep a frame, 1 to 100)"),
                (["--nonsense"], 2, "error: ")):
            with self.assertRaises(CtlFault) as raised:
                self.ctl.lines(*words)
            self.assertEqual(raised.exception.status, status)
            self.assertTrue(raised.exception.text.startswith(text), raised.exception.text)
            self.assertIsInstance(raised.exception, LldpaFault)
        with self.assertRaisesRegex(CtlFault, "^nobody answers at /nowhere: "):
            Ctl("/nowhere", CTL).neighbors()


class Programs(unittest.TestCase):
    """Tests other programs in the place of lldpa-ctl."""

    def program(self, text: str) -> Ctl:
        folder = TemporaryDirectory()
        self.addCleanup(folder.cleanup)
        path = Path(folder.name, "lldpa-ctl")
        path.write_text(f"#!/bin/sh\n{text}\n")
        path.chmod(stat.S_IRWXU)
        return Ctl(program=str(path))

    def test_none(self) -> None:
        with self.assertRaises(FileNotFoundError):
            Ctl(program="/nowhere/lldpa-ctl").neighbors()

    def test_words_are_handed_on_as_they_are(self) -> None:
        ctl = self.program('for word; do echo "[$word]"; done')
        told = ctl.lines("a b", "", "$(x)\tc", "é")
        self.assertEqual(told, ["[a b]", "[]", "[$(x)\tc]", "[é]"])
        ctl.front += ["--control", "x y"]
        self.assertEqual(ctl.lines(), ["[--control]", "[x y]"])

    def test_an_output_without_end_is_not_kept(self) -> None:
        ctl = self.program('echo $$ > "$0.pid"; head -c 70000000 /dev/zero; exec sleep 600')
        with self.assertRaisesRegex(CtlFault, "prints more than 64 MB") as raised:
            ctl.lines("live")
        self.assertIsNone(raised.exception.status)
        number = int(Path(f"{ctl.front[0]}.pid").read_text())
        self.assertFalse(os.path.exists(f"/proc/{number}"))

    def test_faults_without_a_message(self) -> None:
        for text, status, said in (("exit 3", 3, ""), ("echo x >&2; exit 1", 1, "x"),
                                   ("kill -9 $$", -9, ""),
                                   ("printf 'a\\nlldpa-ctl: b: c\\n' >&2; exit 1", 1, "b: c")):
            with self.assertRaises(CtlFault) as raised:
                self.program(text).lines()
            self.assertEqual((raised.exception.status, raised.exception.text), (status, said))


if __name__ == "__main__":
    unittest.main()
