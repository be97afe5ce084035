"""Tests lldpctl as a program, with a control socket and a real agent."""

import json
import os
import pty
import subprocess
import unittest

from patience import SECONDS, eventually
from served import LIVE_LINES, REPOSITORY, Served, numbered, tlv

LLDPCTL, LLDPCLI = str(REPOSITORY / "bin" / "lldpctl"), str(REPOSITORY / "bin" / "lldpcli")
CHASSIS = "mac=02:00:00:00:00:07"


class Program(unittest.TestCase):
    """Tests with a control socket, and with a neighbor at the second of two ports."""

    def setUp(self) -> None:
        self.served = Served(mac="02:00:00:00:00:99", hostname="here", management="192.0.2.1")
        self.addCleanup(self.served.close)
        self.served.live_lines = LIVE_LINES + [
            f"live.eth1.since.1=2020-01-01T00:00:00Z {CHASSIS} ifname=p7".encode(),
            f"live.chassis.12={CHASSIS}".encode()]
        vlan = tlv(127, bytes.fromhex("0080c2010078"))
        self.served.frame("eth1", numbered(7, 120, tlv(5, b"there"), vlan))

    def run_it(self, program: str, *words: str, status: int = 0, said: str = "") -> str:
        """Runs a program. Returns the output, and checks the status and the message."""
        told = subprocess.run([program, "-u", self.served.path, *words], check=False,
                              capture_output=True, text=True, timeout=SECONDS)
        name = program.rpartition("/")[2]
        self.assertEqual((told.stderr, told.returncode), (said and f"{name}: {said}\n", status))
        return told.stdout


class Answers(Program):
    def test_alone_it_prints_neighbors_in_detail(self) -> None:
        lines = self.run_it(LLDPCTL).splitlines()
        self.assertRegex(lines[3], r"^Interface:    eth1, via: LLDP, RID: 12, Time: \d{4} days, ")
        self.assertIn("  VLAN:         120, pvid: yes", lines)
        self.assertEqual(self.run_it(LLDPCTL, "eth1").splitlines()[4:], lines[4:])
        self.assertEqual(len(self.run_it(LLDPCTL, "eth0").splitlines()), 3)

    def test_keys_and_values(self) -> None:
        lines = self.run_it(LLDPCTL, "-f", "keyvalue").splitlines()
        self.assertRegex(lines.pop(2), r"^lldp\.eth1\.age=\d{4} days, \d\d:\d\d:\d\d$")
        self.assertEqual(lines, [
            "lldp.eth1.via=LLDP", "lldp.eth1.rid=12", "lldp.eth1.chassis.mac=02:00:00:00:00:07",
            "lldp.eth1.chassis.name=there", "lldp.eth1.port.ifname=p7", "lldp.eth1.port.ttl=120",
            "lldp.eth1.vlan.vlan-id=120", "lldp.eth1.vlan.pvid=yes"])

    def test_under_the_name_of_lldpcli(self) -> None:
        words = ("show", "neigh", "sum", "-f", "json")  # options may follow
        self.assertEqual(json.loads(self.run_it(LLDPCLI, *words)), {"lldp": {"interface": {"eth1": {
            "via": "LLDP", "chassis": {"there": {"id": {"type": "mac",
                                                        "value": "02:00:00:00:00:07"}}},
            "port": {"id": {"type": "ifname", "value": "p7"}, "ttl": "120"}}}}})
        self.assertEqual(self.run_it(LLDPCTL, "show", "neighbors", "summary", "-f", "json"),
                         self.run_it(LLDPCLI, *words))

    def test_this_host(self) -> None:
        told = self.run_it(LLDPCLI, "-f", "keyvalue", "show", "interfaces", "ports", "eth0")
        self.assertEqual(told.splitlines(), [
            "lldp.eth0.status=RX only", "lldp.eth0.chassis.mac=02:00:00:00:00:99",
            "lldp.eth0.chassis.name=here", "lldp.eth0.chassis.descr=lldpa",
            "lldp.eth0.chassis.mgmt-ip=192.0.2.1",
            "lldp.eth0.chassis.Station.enabled=on", "lldp.eth0.port.ifname=eth0",
            "lldp.eth0.port.descr=eth0", "lldp.eth0.ttl.ttl=121"])
        told = self.run_it(LLDPCLI, "show", "chassis", "summary")
        self.assertEqual(told.splitlines()[3:6], [
            "Chassis:     ", "  ChassisID:    mac 02:00:00:00:00:99", "  SysName:      here"])

    def test_counters(self) -> None:
        told = self.run_it(LLDPCLI, "show", "statistics").splitlines()
        self.assertEqual([line for line in told if "Received" in line],
                         ["  Received:     0", "  Received:     1"])
        told = self.run_it(LLDPCLI, "show", "statistics", "summary", "-f", "keyvalue").splitlines()
        self.assertEqual(told, ["lldp.summary.tx.tx=0", "lldp.summary.rx.rx=1",
                                "lldp.summary.rx_discarded_cnt.rx_discarded_cnt=0",
                                "lldp.summary.rx_unrecognized_cnt.rx_unrecognized_cnt=1",
                                "lldp.summary.ageout_cnt.ageout_cnt=0"])

    def test_since_when_may_be_unknown(self) -> None:
        self.served.live_lines = LIVE_LINES
        lines = self.run_it(LLDPCTL, "-f", "keyvalue").splitlines()
        self.assertEqual(lines[:2], ["lldp.eth1.via=LLDP",
                                     "lldp.eth1.chassis.mac=02:00:00:00:00:07"])


class Handed(Program):
    """Tests commands that are passed on to lldpa-live."""

    def test_configuration(self) -> None:
        for words in ("configure lldp tx-interval 20", "conf lldp tx-ho 3",
                      "configure ports eth0,eth1 lldp status rx-only", "up"):
            self.assertEqual(self.run_it(LLDPCLI, "-d", "-s", *words.split()), "")
        self.run_it(LLDPCLI, "configure", "system", "hostname", "a b")
        asked = [line for line in self.served.asked if line != b"configure lldp tx-ho 3"]
        self.assertEqual(asked, [
            b"configure lldp tx-interval 20", b"configure lldp tx-hold 3",
            b"configure ports eth0 lldp status rx-only",
            b"configure ports eth1 lldp status rx-only",
            b"update", b'configure system hostname "a b"'])
        lines = self.run_it(LLDPCTL, "-f", "keyvalue", "show", "configuration").splitlines()
        self.assertEqual([line.partition("configuration.config.")[2] for line in lines], [
            "tx-delay=20", "tx-delay-ms=20000", "tx-hold=3", "max-neighbors=32", "rx-only=yes"])

    def test_watch(self) -> None:
        self.served.frame("eth0", numbered(3))
        words = [LLDPCLI, "-u", self.served.path, "-f", "keyvalue", "watch", "limit", "3", "ports",
                 "eth1"]
        with subprocess.Popen(words, stdout=subprocess.PIPE, text=True) as watch:
            assert watch.stdout is not None
            self.assertTrue(eventually(lambda: self.served.watched > 0))
            self.assertEqual(self.served.asked[-1], b"watch eth1")
            self.served.frame("eth0", numbered(3, 0))
            for name, ttl in (b"new", 120), (b"other", 120), (b"other", 0):
                self.served.frame("eth1", numbered(8, ttl, tlv(5, name)))
                while "port.ttl=120" not in watch.stdout.readline():
                    pass
            self.assertEqual(watch.wait(), 0)

    def test_output_of_the_console_that_fails(self) -> None:
        with open("/dev/full", "w", encoding="ascii") as full:
            told = subprocess.run([LLDPCLI, "-u", self.served.path], stdout=full, check=False,
                                  stderr=subprocess.PIPE, text=True, timeout=SECONDS,
                                  input="show neighbors\nconfigure lldp tx-hold 3\n")
        self.assertEqual((told.stderr, told.returncode),
                         ("lldpcli: standard output: No space left on device\n", 1))
        self.assertIn(b"configure lldp tx-hold 3", self.served.asked)

    def test_console(self) -> None:
        told = subprocess.run(
            [LLDPCLI, "-u", self.served.path, "-f", "keyvalue"], capture_output=True, text=True,
            input='show chassis summary\nbogus\n\nconfigure system hostname "a b"\nhelp\n"\n'
                  "show chassis summary\nexit\nupdate\n", check=False)
        self.assertEqual(told.returncode, 0)
        names = [line for line in told.stdout.splitlines() if "name=" in line]
        self.assertEqual(names, ["local-chassis.chassis.name=here",
                                 "local-chassis.chassis.name=a b"])
        self.assertIn("usage: lldpcli ", told.stdout)
        self.assertEqual(told.stderr.splitlines(), [
            "lldpcli: wrong word: bogus (show, watch, configure, update)",
            "lldpcli: No closing quotation"])
        self.assertNotIn(b"update", self.served.asked)

    def test_keys_and_values_on_a_terminal(self) -> None:
        name = "\u202e\u200b\x1b[2J".encode()
        self.served.frame("eth0", numbered(9, 120, tlv(5, name)))
        words = [LLDPCTL, "-u", self.served.path, "-f", "keyvalue", "eth0"]
        ours, theirs = pty.openpty()
        with subprocess.Popen(words, stdout=theirs):
            os.close(theirs)
            shown = os.read(ours, 65536)
        os.close(ours)
        self.assertRegex(shown, rb"^[ -~\r\n]*$")
        self.assertIn(rb"name=\xe2\x80\xae\xe2\x80\x8b\x1b[2J", shown)


class Refusals(Program):
    """Tests that unsupported words give status 1 and a message."""

    def test_words(self) -> None:
        shows = "neighbors, interfaces, chassis, statistics, configuration"
        for words, said in (
                (["show", "bogus"], f"wrong word: bogus ({shows})"),
                (["show"], f"a word is missing after show ({shows})"),
                (["resume"], "write: configure ports PORT,.. lldp status rx-and-tx"),
                (["unconfigure", "med"],
                 "nothing is to be undone, since lldpa has no such setting"),
                (["update", "x"], "extra word: x (no word is allowed here)"),
                (["watch", "limit", "0"], "not a number from 1 to 999999999: 0"),
                (["configure", "med", "x"], "such TLVs are received and shown, but not sent"),
                (["configure", "x"], "unknown command: x (system or lldp or ports)"),
                (["configure", "a\"b"], "a word must be ASCII without double quotes: a\"b"),
                (["conf", "lldp", "tx-h", "0"],
                 "out of range: 0 (intervals that peers keep a frame, 1 to 100)"),
                (["-f", "yaml"], "unknown format: yaml (plain, keyvalue, json, json0, xml)"),
                (["-x"], "option -x not recognized")):
            self.assertEqual(self.run_it(LLDPCLI, *words, status=1, said=said), "")

    def test_lldpcli_alone_shortens_its_first_word(self) -> None:
        shown = self.run_it(LLDPCLI, "show", "statistics")
        self.assertEqual(self.run_it(LLDPCLI, "sh", "stat"), shown)
        self.assertEqual(self.run_it(LLDPCTL, "show", "stat"), shown)
        self.run_it(LLDPCTL, "sh", "stat", status=1, said="no such port: sh, stat")

    def test_ports_that_are_not_there(self) -> None:
        told = self.run_it(LLDPCTL, "eth1", "eth9", "-f", "keyvalue", status=1,
                           said="no such port: eth9")
        self.assertIn("lldp.eth1.chassis.name=there\n", told)
        self.run_it(LLDPCLI, "watch", "ports", "eth1,eth8,eth9", status=1,
                    said="no such port: eth8, eth9")

    def test_nobody_answers(self) -> None:
        self.served.path += ".none"
        said = (f"nobody answers at {self.served.path}: is lldpa-live running? "
                "(sudo systemctl start lldpa starts the service)")
        self.assertEqual(self.run_it(LLDPCTL, status=1, said=said), "")

    def test_a_configuration_that_is_not_told(self) -> None:
        self.served.hidden = {b"show configuration", b"show chassis"}
        of_host, numbers = "what this host announces", "the configuration"
        for word, what in (("interfaces", of_host), ("chassis", of_host),
                           ("configuration", numbers)):
            self.run_it(LLDPCTL, "show", word, status=1, said=f"lldpa-live did not report {what}")
