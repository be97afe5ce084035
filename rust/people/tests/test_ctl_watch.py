"""Tests `lldpa-ctl watch`, with a control socket and a real agent."""

import json
import os
import select
import signal
import subprocess
import time
from typing import Sequence

from patience import SECONDS, by_the_clock, eventually, mostly
from served import BIN, CTL, HOSTILE, Program, numbered, tlv

PORTS = ("eth0", "eth1")
LLDPCTL = str(BIN / "lldpctl")
TIME = r"[0-9]{4}-[0-9]{2}-[0-9]{2}T[0-9]{2}:[0-9]{2}:[0-9]{2}[+-][0-9]{4}"


class Watching(Program):
    def setUp(self) -> None:
        super().setUp()
        self.times: list[float] = []

    def watch(self, *words: str, ports: Sequence[str] = ()) -> subprocess.Popen[str]:
        """Starts `lldpa-ctl watch`, and waits until it watches.

        That is when it has printed the table or, with --json, when it was sent the tables.
        """
        watched = self.served.watched
        named = [port for port in ports if port in PORTS]
        table = "" if words else self.run_ctl("neighbors", *named)
        words = (CTL, "--control", self.served.path, *words, "watch", *ports)
        environment = {key: value for key, value in os.environ.items() if key != "PYTHONUNBUFFERED"}
        child = subprocess.Popen(words, stdout=subprocess.PIPE, stderr=subprocess.PIPE, text=True,
                                 env=environment)
        self.addCleanup(child.communicate)
        self.addCleanup(child.kill)
        assert child.stdout is not None
        self.assertEqual("".join(child.stdout.readline() for _ in table.splitlines()), table)
        self.assertTrue(eventually(lambda: self.served.watched > watched))
        return child

    def line(self, child: subprocess.Popen[str]) -> str:
        """Returns the next line of a watch, and notes how long the line took to arrive."""
        assert child.stdout is not None
        began = time.monotonic()
        self.assertTrue(select.select([child.stdout], [], [], SECONDS)[0], "no line")
        self.times.append(time.monotonic() - began)
        return child.stdout.readline()

    @by_the_clock
    def test_a_line_for_each_that_comes_changes_or_goes(self) -> None:
        self.served.frame("eth1", numbered(1))
        child = self.watch()
        self.served.frame("eth0", numbered(2, 120, tlv(5, b"sw" + HOSTILE)))
        self.assertRegex(self.line(child), rf"^{TIME} eth0 came: sw\\x1b\[31m[ -~]* p2\n$")
        self.served.frame("eth0", numbered(2, 90, tlv(5, b"b"), tlv(4, b"up")))
        self.assertRegex(self.line(child), rf"^{TIME} eth0 changed: b p2; ttl: 120 -> 90; "
                         r"chassis\.name: sw[ -~]* -> b; port\.descr: nothing -> up\n$")
        self.served.frame("eth1", numbered(1, 0))
        self.assertRegex(self.line(child), rf"^{TIME} eth1 gone: 02:00:00:00:00:01 p1\n$")
        self.served.tick(30)
        self.served.frame("eth0", numbered(2, 90, tlv(5, b"b"), tlv(4, b"up")))
        assert child.stdout is not None
        self.assertFalse(select.select([child.stdout], [], [], 1.2)[0], "nothing was new")
        self.served.tick(90)
        self.assertRegex(self.line(child), rf"^{TIME} eth0 gone: b p2\n$")
        self.assertLess(mostly(self.times), 1)

    def test_of_some_ports(self) -> None:
        child = self.watch(ports=["eth1"])
        for number, port in enumerate(("eth0", "eth1")):
            self.served.frame(port, numbered(number))
        self.assertRegex(self.line(child), r" eth1 came: [ -~]* p1\n$")
        self.run_ctl("watch", "eth9", status=1, said="no such port: eth9 (eth0, eth1)")

    def test_as_json(self) -> None:
        child = self.watch("--json")
        self.served.frame("eth0", numbered(2))
        told = json.loads(self.line(child))
        self.assertRegex(told["time"], f"^{TIME}$")
        self.assertEqual((told["what"], told["changes"]), ("came", []))
        self.assertEqual(told["neighbor"]["id"], "mac=02:00:00:00:00:02 ifname=p2")

    def test_while_the_agent_waits_for_an_interface(self) -> None:
        self.served.waits = True
        for front in ([], ["--json"]):
            self.run_ctl(*front, "watch", status=1, said="waiting for an interface: eth0")

    def test_a_limit(self) -> None:
        for front, ports in (([], ["limit", "2"]), ([], ["ports", "eth0", "lim", "2"]),
                             (["--json"], ["limit", "2", "eth0"])):
            child = self.watch(*front, ports=ports)
            lines = []
            for number in (1, 2):
                self.served.frame("eth0", numbered(number))
                lines.append(self.line(child))
                self.assertRegex(lines[-1], f" eth0 came: [ -~]* p{number}$"
                                            f'|"came".* ifname=p{number}"')
            self.assertEqual((child.wait(SECONDS), child.communicate()), (0, ("", "")))
            self.served.tick(120)
        for words, said in ((["limit"], "a word is missing after limit"),
                            (["limit", "0"], "not a number from 1 to 999999999: 0"),
                            (["eth0", "limit", "x"], "not a number from 1 to 999999999: x")):
            for front in ([], ["--json"]):
                self.run_ctl(*front, "watch", *words, status=1, said=said)

    def test_it_ends_with_its_reader(self) -> None:
        for words in ([CTL, "--control", self.served.path, "watch"],
                      [CTL, "--control", self.served.path, "--json", "watch"],
                      [LLDPCTL, "-u", self.served.path, "watch"]):
            watched = self.served.watched
            child = subprocess.Popen(words, stdout=subprocess.PIPE, stderr=subprocess.PIPE)
            self.addCleanup(child.communicate)
            self.addCleanup(child.kill)
            self.assertTrue(eventually(lambda: self.served.watched > watched))
            assert child.stdout is not None
            child.stdout.close()
            self.assertEqual((child.wait(SECONDS), child.stderr and child.stderr.read()), (1, b""))

    def test_its_end(self) -> None:
        child = self.watch()
        child.send_signal(signal.SIGINT)
        self.assertEqual((child.communicate(), child.returncode), (("", ""), 130))
        child = self.watch()
        self.served.stop()
        said = child.communicate(timeout=SECONDS)
        self.assertEqual((said, child.returncode),
                         (("", "lldpa-ctl: lldpa-live has ended the connection\n"), 1))
        self.served.start()
