"""Tests the table that lldpa-capture prints with --table."""

import os
import pty
import random
import re
import shutil
import signal
import struct
import subprocess
import sys
import termios
import unittest
from contextlib import suppress
from fcntl import ioctl
from pathlib import Path
from typing import List, Tuple

from made_captures import LLDP, OTHER, SECOND, START, interface, packet, pcap, section, whole
from patience import HANGS, eventually
from running_live import LIVE
from served import HOSTILE, PROGRAM, REPOSITORY, Served, ctl, frame, tlv
from support import CAPTURE, FilesCase
from wires import Peer, Wires, inside

LAB = str(REPOSITORY / "docs" / "lab.pcap")
OF_LAB = """\
PORT  NEIGHBOR  ITS PORT  MANAGEMENT   LEFT
eth0  lab-1     eth0      192.0.2.1   121 s
eth0  switch-2  swp1      192.0.2.2    20 s
2 neighbors on 1 port.
"""
ONE = """\
PORT  NEIGHBOR           ITS PORT  MANAGEMENT   LEFT
{}  00:11:22:33:44:55  eth0                  120 s
1 neighbor on {}.
"""
IPV6 = bytes.fromhex("fe800000000000000000000000000001")


def named(number: int, name: bytes, port: bytes = b"\x05p1", *further: bytes) -> bytes:
    """Returns a frame of a neighbor with this System Name."""
    chassis = b"\4\2\0\0\0" + number.to_bytes(2, "big")
    return frame(chassis, port, 120, *further, tlv(5, name))


def management(family: int, address: bytes) -> bytes:
    return tlv(8, bytes([len(address) + 1, family]) + address + b"\2\0\0\0\1\0")


def shown_at(width: int, *words: str) -> Tuple[List[str], int]:
    """Returns the lines that lldpa-capture prints on a terminal of this width, and its status."""
    ours, theirs = pty.openpty()
    ioctl(theirs, termios.TIOCSWINSZ, struct.pack("HHHH", 24, width, 0, 0))
    with subprocess.Popen([sys.executable, CAPTURE, "--table", *words], stdout=theirs) as ran:
        os.close(theirs)
        printed = b""
        try:
            while some := os.read(ours, 65536):
                printed += some
        except OSError:  # so a terminal ends
            pass
        os.close(ours)
    return printed.decode().replace("\r\n", "\n").splitlines(), ran.returncode


class Table(FilesCase):
    def test_a_capture_and_a_stream(self) -> None:
        lab = Path(LAB).read_bytes()
        self.assertEqual(self.ran("--table", LAB), (OF_LAB, "", 0))
        self.assertEqual(self.ran("--table", "-", octets=lab), (OF_LAB, "", 0))
        for words in (["swp1=-"], ["--port", "swp1", "-"]):
            self.assertEqual(self.ran("--table", *words, octets=lab)[0],
                             re.sub("^eth0", "swp1", OF_LAB, flags=re.M))

    def test_ports_of_files_and_of_streams(self) -> None:
        two = section() + interface(name="swp1") + interface(name="swp2") + packet(whole(LLDP))
        self.file(two, "two")
        self.assertEqual(self.ran("--table", "two")[0], ONE.format("swp1", "2 ports"))
        self.assertEqual(self.ran("--table", "-", octets=two)[0], ONE.format("swp1", "1 port"))
        silent = pcap([whole(OTHER)])
        self.assertEqual(self.ran("--table", "-", octets=silent)[0], "no neighbors on 1 port.\n")
        told = self.ran("--table", "--port=-swp", "-", octets=pcap([whole(LLDP)]))
        self.assertEqual(told, (ONE.format("-swp", "1 port"), "", 0))

    def test_neighbors_that_left_are_not_in_it(self) -> None:
        self.file(pcap([whole(LLDP), whole(OTHER, START + 120 * SECOND)]), "late")
        self.assertEqual(self.ran("--table", "late"), ("no neighbors on 1 port.\n", "", 0))
        self.assertEqual(self.ran("--table", "--no-seconds", "late")[0],
                         ONE.format("eth0", "1 port"))

    def test_more_neighbors_than_a_port_holds(self) -> None:
        self.file(pcap([whole(named(number, b"n")) for number in range(129)]), "many")
        lines = self.ran("--table", "many")[0].splitlines()
        self.assertEqual((len(lines), lines[-1]), (130, "128 neighbors on 1 port. eth0 had no room "
                                                   "for a neighbor: a port holds at most 128."))

    def test_more_ports_than_an_agent_has(self) -> None:
        places = range(65)
        many = section() + b"".join(interface(name=f"p{place}") for place in places)
        many += b"".join(packet(whole(LLDP), place=place) for place in places)
        self.file(many, "many")
        for word in ("many", "-"):
            told, said, status = self.ran("--table", word, octets=many)
            self.assertEqual((told, status), ("", 2))
            self.assertIn("65 ports have LLDP frames; the limit is 64", said)

    def test_what_could_be_read_of_a_damaged_capture_is_shown(self) -> None:
        self.file(pcap([whole(LLDP)] * 2)[:-1], "cut")
        told, said, status = self.ran("--table", "cut")
        self.assertEqual((told, status), (ONE.format("eth0", "1 port"), 1))
        self.assertIn("inside the record", said)
        self.assertEqual(self.ran("--table", "gone")[1:],
                         ("lldpa-capture: gone: No such file or directory\n", 1))

    def test_words_that_it_goes_without(self) -> None:
        for word in ("--show", "--ports"):
            self.assertEqual(self.ran("--table", word, LAB)[2], 2)

    def test_a_folder_for_temporary_files_without_room(self) -> None:
        ran = subprocess.run(["prlimit", "--fsize=4096", sys.executable, CAPTURE, "--table",
                              self.file(pcap([whole(LLDP)] * 100))], text=True,
                             capture_output=True, check=False)
        self.assertEqual((ran.returncode, ran.stdout, ran.stderr), (
            1, "", "lldpa-capture: --table needs a temporary file: File too large\n"))

    def test_ctrl_c_ends_a_stream_and_prints_what_was_heard(self) -> None:
        with subprocess.Popen([sys.executable, CAPTURE, "--table", "-"], stdin=subprocess.PIPE,
                              stdout=subprocess.PIPE, text=True) as ran:
            assert ran.stdin is not None
            ran.stdin.buffer.write(pcap([whole(LLDP)]))
            ran.stdin.flush()
            self.assertTrue(eventually(lambda: has_written(ran.pid)))
            ran.send_signal(signal.SIGINT)
            told = ran.communicate()[0]
        self.assertEqual((told, ran.returncode), (ONE.format("eth0", "1 port"), 0))


def has_written(process: int) -> bool:
    """Returns whether a process has a temporary file with something in it."""
    for file in Path(f"/proc/{process}/fd").iterdir():
        with suppress(FileNotFoundError):  # it may close others meanwhile
            if re.search(r"/tmp.* \(deleted\)", os.readlink(file)) and file.stat().st_size:
                return True
    return False


@unittest.skipUnless(os.geteuid() == 0, "root: only root makes links")
@unittest.skipUnless(shutil.which("ip"), "ip: it is not installed")
@unittest.skipUnless(shutil.which("tcpdump"), "tcpdump: it is not installed")
class OnALink(unittest.TestCase):
    def test_readmes_command_shows_who_sends(self) -> None:
        command = re.findall("^sudo (tcpdump .*)$", (REPOSITORY / "README.md").read_text(), re.M)
        self.assertEqual(len(command), 1)
        wires = Wires()
        self.addCleanup(wires.close)
        with inside(wires.here):
            shell = subprocess.Popen(["sh", "-c", command[0]], cwd=REPOSITORY, text=True,
                                     stdout=subprocess.PIPE, stderr=subprocess.PIPE)
        assert shell.stderr is not None
        self.assertIn("listening on eth0", shell.stderr.readline())
        peer = Peer(wires, "peer0")
        self.addCleanup(peer.close)
        peer.send(LLDP)
        told = shell.communicate(timeout=HANGS)[0]
        self.assertEqual((told, shell.returncode), (ONE.format("eth0", "1 port"), 0))


class Installed(FilesCase):
    """Tests the package without the reference in Python, as an installed one is."""

    def setUp(self) -> None:
        super().setUp()
        shutil.copytree(REPOSITORY / "python" / "lldpa", self.folder / "python" / "lldpa")
        self.words = [sys.executable, "-m", "lldpa.commands.capture", "--table", LAB]

    def table(self, path: str) -> Tuple[str, str, int]:
        ran = subprocess.run(self.words, text=True, capture_output=True, check=False,
                             env={"PATH": path, "PYTHONPATH": str(self.folder / "python")})
        return ran.stdout, ran.stderr, ran.returncode

    def test_lldpa_is_run(self) -> None:
        self.assertEqual(self.table(os.path.dirname(PROGRAM)), (OF_LAB, "", 0))

    def test_lldpa_is_missing(self) -> None:
        told = "lldpa-capture: --table needs lldpa: not found on the path\n"
        self.assertEqual(self.table("/nowhere"), ("", told, 1))


class Texts(FilesCase):
    """Tests texts that strangers chose."""

    def table(self, *frames: bytes) -> str:
        told, said, status = self.ran("--table", "-", octets=pcap([whole(one) for one in frames]))
        self.assertEqual((said, status), ("", 0))
        return told

    def test_hostile_texts(self) -> None:
        told = self.table(named(1, HOSTILE + "caf\xe9 \u202e京".encode(), b"\x07" + HOSTILE))
        self.assertIn("\\x1b[31m\\x0d\\x0a\\x9b2J\\x07café \\xe2\\x80\\xae京", told)
        self.assertIn("  \\x1b[31m\\x0d\\x0a\\x9b2J\\x07  ", told)
        self.assertEqual(told.count("\n"), 3)
        self.assertTrue(told.replace("\n", "").isprintable())

    def test_names_and_addresses(self) -> None:
        mac = b"\x03\2\0\0\0\0\7"
        self.assertIn("eth0  02:00:00:00:00:01  02:00:00:00:00:07  fe80::1     120 s\n",
                      self.table(named(1, b"", mac, management(2, IPV6))))
        self.assertIn("eth0  n         swp1 ", self.table(named(1, b"n", mac, tlv(4, b"swp1"))))
        self.assertIn("eth0  n         p1 ", self.table(named(1, b"n", b"\5p1", tlv(4, b"swp1"))))
        self.assertIn("eth0  10.0.0.1  p1 ", self.table(frame(b"\5\1\x0a\0\0\1", b"\5p1", 120)))

    def test_a_name_cannot_write_the_next_line_of_a_narrow_terminal(self) -> None:
        path = self.file(pcap([whole(named(1, b" " * 200 + b"eth1  switch  swp9"))]))
        for width in (1, 10, 20, 40, 80):
            lines, status = shown_at(width, path)
            self.assertEqual(status, 0)
            self.assertTrue(all(len(line) <= max(width, 20) for line in lines), lines)
            self.assertNotIn("swp9", "".join(lines))
        self.assertEqual(shown_at(40, LAB)[0], [
            "PORT  NEIGHBOR  ITS PORT   LEFT", "eth0  lab-1     eth0      121 s",
            "eth0  switch-2  swp1       20 s", "2 neighbors on 1 port."])

    @unittest.skipUnless(os.access(LIVE, os.X_OK), "cargo: lldpa-ctl is not built")
    def test_lldpa_ctl_prints_the_same(self) -> None:
        dice = random.Random(5)
        letters = [*map(chr, range(0x250)), *"\u0301\u20dd京한😀\u200b\u202e\u3164\\…"]
        frames = []
        for number in range(100):
            name = "".join(dice.choices(letters, k=dice.randrange(40))).encode()
            octets = bytes(dice.choices(range(0xC0), k=dice.randrange(20)))  # hardly any is UTF-8
            port = bytes([dice.randrange(1, 8)]) + (name + b"p")[:dice.randrange(1, 40)]
            frames.append(named(number, dice.choice((name, octets)), port, tlv(4, name),
                                management(*dice.choice(((1, octets[:4]), (2, IPV6))))))
        with Served(max_neighbors=128) as served:
            for one in frames:
                served.frame("eth0", one)
            theirs = ctl(served.path, "neighbors").stdout.splitlines()
        ours = self.table(*frames).splitlines()
        self.assertGreater(len(ours), 80)
        self.assertEqual(ours[:-1], theirs[:len(ours) - 1])


if __name__ == "__main__":
    unittest.main()
