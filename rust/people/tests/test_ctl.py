"""Tests lldpa-ctl as a program, with a control socket and a real agent."""

import fcntl
import json
import os
import pty
import re
import socket
import struct
import subprocess
import termios
import time
from unittest import mock

from served import CTL, HOSTILE, LIVE_LINES, Program, frame, numbered, tlv


class Answers(Program):
    def test_alone_it_prints_the_table(self) -> None:
        self.assertEqual(self.run_ctl(), "no neighbors on 2 ports.\n"
                                         "eth1: no interface that can be used\n")
        name = tlv(5, b"n" * 255)
        self.served.frame("eth1", numbered(7, 120, name))
        lines = self.run_ctl().splitlines()
        self.assertRegex(lines[1], r"^eth1  n{255}  p7 +120 s$")
        self.assertEqual(lines[2:], ["1 neighbor on 2 ports."])

    def test_commands_print_the_lines_of_the_agent(self) -> None:
        self.served.frame("eth0", numbered(1))
        for words in (["show", "neighbors"], ["show", "statistics"], ["show", "chassis"],
                      ["show", "configuration"], ["show neighbors"]):
            answer = self.served.ask(" ".join(words).encode())
            self.assertEqual(self.run_ctl(*words).splitlines(), answer)
        lines = [one.decode() for one in LIVE_LINES]
        self.assertEqual(self.run_ctl("live").splitlines(), lines)

    def test_a_newer_agent_may_have_more_settings(self) -> None:
        known, ask = self.served.ask(b"show configuration"), self.served.ask
        place = known.index("configuration.eth0.status=rx-only")
        newer = [*known[:place], "configuration.further=7", known[place],
                 "configuration.eth0.place=roof", *known[place + 1:]]
        questions = ([], ["interfaces"], ["--json", "interfaces"],
                     ["configure", "ports", "eth0", "lldp", "status", "rx-only"])
        told = [self.run_ctl(*words) for words in questions]
        answers = lambda line: newer if line == b"show configuration" else ask(line)
        with mock.patch.object(self.served, "ask", answers):
            self.assertEqual([self.run_ctl(*words) for words in questions], told)
            self.assertEqual(self.run_ctl("show", "configuration").splitlines(), newer)

    def test_the_vlan_of_the_table_is_the_one_of_the_details(self) -> None:
        for tlvs in ([], ["0078"], ["0000"], ["0ffe"], ["0fff"], ["0078", "0078"], ["0078", "0079"],
                     ["0078", "007800"], ["00"]):
            said = [tlv(127, bytes.fromhex("0080c201" + digits)) for digits in tlvs]
            self.served.frame("eth0", numbered(1, 120, *said))
            neighbor = json.loads(self.run_ctl("--json"))["ports"][0]["neighbors"][0]
            vlan = neighbor["vlan"]["pvid"]
            rows = self.run_ctl().splitlines()
            self.assertEqual(rows[1].split()[3:-2], [str(vlan)] if vlan else [], tlvs)
            self.assertEqual("VLAN" in rows[0], bool(vlan), tlvs)

    def test_json_of_a_command_that_answers_nothing(self) -> None:
        for words in (["update"], ["configure", "lldp", "tx-hold", "5"]):
            self.assertEqual(self.run_ctl("--json", *words), "{}\n")
        self.assertIn("configuration.tx-hold=5", self.run_ctl("show", "configuration"))
        for words, said in ((["show", "x"], "unknown command: x (neighbors, statistics, chassis, "
                             "configuration, interfaces)"),
                            (["show", "chassis", "x"], "extra word: x (no word is allowed here)"),
                            (["live", "x"], "extra word: x (no word is allowed here)")):
            self.run_ctl("--json", *words, status=1, said=said)

    def test_json_tells_the_same(self) -> None:
        self.served.frame("eth0", numbered(1, 120, tlv(5, HOSTILE), tlv(7, b"\0\x14\0\4"),
                                           tlv(8, bytes([5, 1, 192, 0, 2, 1, 2, 0, 0, 0, 1, 0])),
                                           tlv(127, b"\0\x12\x0f\x01abc"), tlv(126, b"\xff")))
        told = json.loads(self.run_ctl("--json", "show", "neighbors"))
        self.assertEqual(told, json.loads(self.run_ctl("--json")))
        self.assertEqual(told, json.loads(self.run_ctl("--json", "details")))
        self.assertEqual([port["name"] for port in told["ports"]], ["eth0", "eth1"])
        self.assertEqual(told["ports"][0]["neighbors"], [{
            "port": "eth0", "place": 1, "id": "mac=02:00:00:00:00:01 ifname=p1", "since": None,
            "chassis": {"kind": "mac", "text": "02:00:00:00:00:01"},
            "port_id": {"kind": "ifname", "text": "p1"}, "ttl": 120, "expires": 120,
            "name": r"\x1b[31m\x0d\x0a\x9b2J\x07", "octets": {"name": HOSTILE.hex()},
            "descr": None, "port_descr": None,
            "capabilities": {"Bridge": True, "Router": False}, "management": ["192.0.2.1"],
            "org": [{"kind": "00120f.1", "octets": "616263"}],
            "unknown": [{"type": 126, "octets": "ff"}],
            "vlan": {"pvid": None, "names": [], "protocol_vlans": [], "protocols": [],
                     "usage_digest": None, "management": None},
            "max_frame_size": None, "link_aggregation": None, "mac_phy": None, "power": None,
            "eee": None, "dcb": None, "med": None, "mud_url": None,
            "organizational": [{"oui": "00120f", "subtype": 1, "octets": "616263"}]}])
        eth1 = json.loads(self.run_ctl("show", "neighbors", "eth1", "--json"))
        self.assertEqual(eth1, {"ports": told["ports"][1:]})
        counters = json.loads(self.run_ctl("--json", "show", "statistics"))["counters"]
        self.assertEqual(counters["eth0"]["received"], 1)
        configuration = json.loads(self.run_ctl("--json", "show", "configuration"))
        self.assertEqual(configuration["configuration"]["tx_interval"], 30)
        chassis = json.loads(self.run_ctl("--json", "show", "chassis"))["chassis"]
        self.assertEqual(chassis["name"], "localhost")
        self.assertEqual(json.loads(self.run_ctl("--json", "live"))["live.eth0.kernel-drops"],
                         "7")

    def test_details_say_that_a_tlv_was_discarded(self) -> None:
        self.served.frame("eth0", numbered(1, 120, tlv(6, b"d" * 255)))
        self.assertNotIn("discarded", self.run_ctl("details"))
        self.served.frame("eth1", numbered(2, 120, tlv(6, b"d" * 256)))
        self.assertEqual(self.run_ctl("details").splitlines()[-1],
                         "eth1: 1 TLV discarded since the agent started")
        self.assertNotIn("discarded", self.run_ctl("details", "eth0"))

    def test_on_a_terminal_it_is_as_wide_and_nothing_is_raw(self) -> None:
        texts = [tlv(kind, HOSTILE) for kind in (4, 5, 6)]
        texts += [tlv(8, b"\x0a\x63" + HOSTILE[:9] + b"\2\0\0\0\1\0")]
        for kind in range(8):
            identifier = bytes([kind]) + HOSTILE
            self.served.frame("eth0", frame(identifier, identifier, 120, *texts))
        questions: list[list[str]] = [[], ["show", "neighbors"], ["--json"], ["metrics"],
                                      ["details"], ["interfaces"], ["statistics"]]
        for words in questions:
            octets = self.on_a_terminal(60, *words)
            self.assertRegex(octets.replace("…".encode(), b"").decode("latin-1"), "^([ -~]|\r\n)*$")
        lines = self.on_a_terminal(60).decode().splitlines()
        self.assertEqual(max(map(len, lines)), max(len(lines[0]), len(lines[1])))
        self.assertTrue(55 < len(lines[1]) <= 60 and "…" in lines[1], lines[1])

    def on_a_terminal(self, width: int, *words: str) -> bytes:
        """Returns what lldpa-ctl writes to a terminal of this width."""
        ours, theirs = pty.openpty()
        fcntl.ioctl(theirs, termios.TIOCSWINSZ, struct.pack("HHHH", 24, width, 0, 0))
        child = subprocess.Popen([CTL, "--control", self.served.path, *words], stdout=theirs)
        os.close(theirs)
        octets = b""
        while True:
            try:
                octets += os.read(ours, 65536)
            except OSError:  # the terminal was closed at its other end
                break
        os.close(ours)
        self.assertEqual(child.wait(), 0)
        return octets

    def test_a_terminal_without_the_mark_gets_another(self) -> None:
        self.served.frame("eth0", numbered(1, 120, tlv(5, b"n" * 255)))
        environment = {"LC_ALL": "de_DE.ISO-8859-1", "PYTHONCOERCECLOCALE": "0", "PYTHONUTF8": "0"}
        os.environ.update(environment)
        self.addCleanup(lambda: [os.environ.pop(name) for name in environment])
        self.assertIn(b"nnn?  p1", self.on_a_terminal(60))


class Faults(Program):
    def test_a_client_for_whom_there_is_no_room_waits_for_it(self) -> None:
        path = self.served.path + "-full"
        with socket.socket(socket.AF_UNIX) as full, socket.socket(socket.AF_UNIX) as first:
            full.bind(path)
            full.listen(0)
            first.connect(path)
            child = subprocess.Popen([CTL, "--control", path, "live"], stdout=subprocess.PIPE,
                                     stderr=subprocess.PIPE)
            self.addCleanup(child.communicate)
            self.addCleanup(child.kill)
            time.sleep(0.2)  # meanwhile it finds no room
            self.assertIsNone(child.poll())
            full.accept()[0].close()
            with full.accept()[0] as client:
                client.recv(100)
                client.sendall(b"=1\nlive.a=b\n")
                self.assertEqual(child.communicate(), (b"live.a=b\n", b""))

    def test_bad_words(self) -> None:
        for word in ('a"b', "中"):
            self.run_ctl("configure", word, status=2,
                         said=f"a word must be ASCII without double quotes: {word}")
        self.run_ctl("a\nb", status=2, said="a line contains a line feed")
        for words in (["metrics", "x"], ["--json", "metrics"], ["--jso"],
                      ["--output", "x", "show", "neighbors"], ["--output", "x"],
                      ["metrics", "--output"], ["--output", "x", "--json", "metrics"]):
            told = subprocess.run([CTL, *words], check=False, capture_output=True, text=True)
            self.assertEqual((told.returncode, told.stdout), (2, ""))
            self.assertRegex(told.stderr, r"(?s)^usage: lldpa-ctl .*lldpa-ctl: error: [^\n]*\n$")

    def test_words_may_be_shortened(self) -> None:
        for words, full in (("d", "details"), ("n eth0", "neighbors eth0"),
                            ("sh ne eth1", "show neighbors eth1"),
                            ("sh conf", "show configuration")):
            self.assertEqual(self.run_ctl(*words.split()), self.run_ctl(*full.split()))
        self.run_ctl("st", "su", status=1, said="no such port: su (eth0, eth1)")
        self.run_ctl("conf", "lldp", "tx-i", "9")
        self.assertIn(b"configure lldp tx-interval 9", self.served.asked)
        self.run_ctl("up", status=1, said="for lldpa-live alone")
        self.run_ctl("s", status=1, said="unknown command: s (neighbors, details, interfaces, "
                     "statistics, live, show, configure, update, watch, metrics, record, reload, check, help)")

    def test_help_names_each_command(self) -> None:
        told = self.run_ctl("--help")
        self.assertEqual(told, self.run_ctl("help"))
        for word in ("neighbors", "details", "interfaces", "statistics summary", "show neighbors",
                     "configure", "update", "live", "watch", "metrics", "--json"):
            self.assertTrue(re.search(rf"\b{word.lstrip('-')}\b", told), word)
        self.assertLessEqual(max(map(len, told.splitlines())), 80)
