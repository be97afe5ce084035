"""Tests the System Name: it is the host's name with its domain, as lldpd makes it, and nothing waits for the name
service, whether it answers late, never or otherwise than before."""

import os
import socket
import subprocess
import sys
import threading
import time
import unittest
from contextlib import suppress
from pathlib import Path
from typing import Iterator, Sequence
from unittest import mock

from patience import SECONDS, eventually
from real_lldpd import Lldpd, beside_lldpd
from running_live import LIVE, Live, OnLinks
from test_groups import DYNAMIC
from test_unit_filter import AS_THE_UNIT
from wires import inside, tlvs_of

SYSTEM_NAME = 5
ASKED_AGAIN = 40.0  # seconds: the name is looked up each 30
AT_MOST = 2.0  # seconds after the name service has answered
FILES = ("hosts", "nsswitch.conf", "resolv.conf")
# runs a program on a host of this name, in which other files are those in /etc
HOST = ["unshare", "--uts", "--mount", "sh", "-c", 'hostname "$1" && ' +
        "".join(f'mount --bind "$2/{name}" /etc/{name} && ' for name in FILES) + 'shift 2 && exec "$@"', "sh"]
HOSTS = "127.0.0.1 localhost\n127.0.1.1 web17.example.com web17\n127.0.1.2 db3.example.com db3\n"


def askers(live: Live) -> "list[int]":
    """Returns the processes that ask for the name of an lldpa-live's host: its children."""
    children = Path(f"/proc/{live.process.pid}/task/{live.process.pid}/children").read_text().split()
    return [int(one) for one in children if b"--name-of-host" in Path(f"/proc/{one}/cmdline").read_bytes()]


class Named(OnLinks):
    def setUp(self) -> None:
        super().setUp()
        self.folder.chmod(0o777)
        self.hosts = self.folder / "hosts"
        self.hosts.write_text(HOSTS)
        (self.folder / "nsswitch.conf").write_text("passwd: files\ngroup: files\nhosts: files dns\n")
        (self.folder / "resolv.conf").write_text("search example.com\nnameserver 127.0.0.1\noptions timeout:1\n")

    def on(self, name: str) -> "list[str]":
        return [*HOST, name, str(self.folder)]

    def on_host(self, *words: str, name: str = "web17", rights: Sequence[str] = ()) -> Live:
        return self.live("eth0", *words, before=[*self.on(name), *rights])

    def rename(self, live: Live, name: str) -> None:
        words = ["nsenter", f"--uts=/proc/{live.process.pid}/ns/uts", sys.executable, "-c"]
        subprocess.run([*words, f"import socket; socket.sethostname({name!r})"], check=True)

    def is_named(self, live: Live, name: str, seconds: float = ASKED_AGAIN) -> None:
        line = f"local-chassis.name={name}"
        self.assertTrue(eventually(lambda: line in live.ask("show chassis"), seconds), live.ask("show chassis"))

    def heard(self, name: str) -> bool:
        """True if the peer hears a frame with this name."""
        peer = self.peer()
        return bool(eventually(lambda: dict(tlvs_of(peer.hears(2) or bytes(14))).get(SYSTEM_NAME) == name.encode()))

    def programs(self) -> "Iterator[str]":
        """Yields each program that there is, while it is the one that is started."""
        for program in (LIVE, DYNAMIC):
            if os.access(program, os.X_OK):
                with mock.patch("running_live.LIVE", program):
                    yield program


class Names(Named):
    def test_it_has_the_domain(self) -> None:
        for program in self.programs():
            for rights in ((), AS_THE_UNIT):
                live = self.on_host(rights=rights)
                self.is_named(live, "web17.example.com")
                self.assertTrue(self.heard("web17.example.com"), program)
                live.close()

    def test_a_host_without_a_domain_has_its_name(self) -> None:
        for _ in self.programs():
            live = self.on_host(name="mail")
            self.assertTrue(self.heard("mail"))
            self.assertEqual(live.errors(), "")
            live.close()

    def test_the_domain_can_be_left_out_and_another_name_wins(self) -> None:
        for words, name in ((["--no-domain"], "web17"), (["--", "--hostname", "given"], "given")):
            live = self.on_host(*words)
            self.assertEqual(askers(live), [], "nobody is asked")
            self.is_named(live, name)
            live.close()

    def test_a_name_that_a_command_has_set_stays(self) -> None:
        live = self.on_host()
        self.is_named(live, "web17.example.com")
        live.ask("configure system hostname chosen")
        self.rename(live, "db3")
        live.spend(2)
        self.is_named(live, "chosen")

    def test_the_host_has_another_name(self) -> None:
        for _ in self.programs():
            live = self.on_host()
            self.is_named(live, "web17.example.com")
            self.rename(live, "db3")
            self.is_named(live, "db3.example.com")
            self.rename(live, "mail")
            self.is_named(live, "mail")
            live.close()

    def test_the_host_has_another_domain(self) -> None:
        for _ in self.programs():
            self.hosts.write_text(HOSTS)
            live = self.on_host()
            self.is_named(live, "web17.example.com")
            self.hosts.write_text(HOSTS.replace("example.com", "example.net"))
            self.is_named(live, "web17.example.net")
            live.close()

    def test_a_name_that_cannot_be_announced_is_told_once(self) -> None:
        self.hosts.write_text('127.0.1.1 web"17 web17\n')
        live = self.on_host()
        self.assertTrue(live.says('the host name web"17 cannot be announced, so the old one stays'))
        self.is_named(live, "web17")
        self.assertEqual(live.errors().count("cannot be announced"), 1)


class Late(Named):
    """A name service that hangs: a reader of the file waits until somebody writes. (A program that is linked to the C
    library of the system reads no such file.)"""

    def setUp(self) -> None:
        super().setUp()
        self.hosts.unlink()
        os.mkfifo(self.hosts)

    def begun(self, rights: Sequence[str] = ()) -> Live:
        live = self.on_host(rights=rights)
        self.assertTrue(self.heard("web17"), "nothing waits")
        self.becomes_neighbor(live)
        self.assertEqual(len(askers(live)), 1)
        return live

    def answer(self) -> bool:
        """Answers, if somebody has asked."""
        try:
            with open(os.open(self.hosts, os.O_WRONLY | os.O_NONBLOCK), "w") as file:
                file.write(HOSTS)
        except OSError:
            return False
        return True

    def test_it_answers_later(self) -> None:
        live = self.begun(AS_THE_UNIT)
        self.assertTrue(eventually(self.answer))
        answered = time.monotonic()
        self.is_named(live, "web17.example.com")
        self.assertLess(time.monotonic() - answered, AT_MOST)

    def test_it_answers_when_the_host_has_another_name(self) -> None:
        live = self.begun()
        self.rename(live, "db3")
        self.is_named(live, "db3")
        line = "local-chassis.name=db3.example.com"  # first the answer about web17 comes
        self.assertTrue(eventually(lambda: line in live.ask("show chassis") or self.answer() and False))

    def test_it_never_answers_and_its_process_ends_with_lldpa_live(self) -> None:
        live = self.begun()
        asker = askers(live)[0]
        status = Path(f"/proc/{asker}/status").read_text()
        self.assertNotIn("\nUid:\t0\t", status)
        self.assertIn("\nCapPrm:\t0000000000000000\n", status)
        self.assertEqual(live.ended(), 0)
        self.assertTrue(eventually(lambda: not Path(f"/proc/{asker}").exists()))

    def test_without_the_process_that_asks_the_name_stays(self) -> None:
        live = self.begun()
        os.kill(askers(live)[0], 9)
        self.assertTrue(live.says("the host's name is no longer looked up"))
        used = live.used()
        live.spend(2)
        self.assertLess(live.used() - used, 0.5)
        self.is_named(live, "web17")


class Dns:
    """A server of DNS in a namespace, which knows web17.example.com, and answers nothing until it is let."""

    NAME = b"\x05web17\x07example\x03com\0"

    def __init__(self, namespace: str) -> None:
        with inside(namespace):
            self.socket = socket.socket(socket.AF_INET, socket.SOCK_DGRAM)
        self.socket.bind(("127.0.0.1", 53))
        self.answers, self.answered = False, 0.0
        threading.Thread(target=self.serve, daemon=True).start()

    def serve(self) -> None:
        with suppress(OSError):  # once it is closed
            while True:
                query, asker = self.socket.recvfrom(512)
                if self.answers:
                    self.socket.sendto(self.reply(query), asker)
                    self.answered = time.monotonic()

    def reply(self, query: bytes) -> bytes:
        """Returns a reply with an address of IPv4, if that is asked for. (RFC 1035, 4.1)"""
        question = query[12:query.index(b"\0", 12) + 5]
        has = question.startswith(self.NAME) and question[-3] == 1
        address = b"\xc0\x0c\0\x01\0\x01\0\0\0\x09\0\x04\x7f\0\x01\x01" if has else b""
        code = b"\x81\x80" if question.startswith(self.NAME) else b"\x81\x83"
        return query[:2] + code + b"\0\x01" + bytes([0, has]) + bytes(4) + question + address


@unittest.skipUnless(os.access(DYNAMIC, os.X_OK),
                     "cargo: tools/release/live.sh --dynamic builds such an lldpa-live with it")
class InDns(Named):
    def test_a_domain_that_only_dns_knows_and_says_late(self) -> None:
        self.hosts.write_text("127.0.0.1 localhost\n")
        dns = Dns(self.wires.here)
        self.addCleanup(dns.socket.close)
        with mock.patch("running_live.LIVE", DYNAMIC):
            live = self.on_host(rights=AS_THE_UNIT)
        self.assertTrue(self.heard("web17"), "nothing waits")
        self.becomes_neighbor(live)
        live.spend(5)
        self.is_named(live, "web17")
        dns.answers = True
        self.is_named(live, "web17.example.com")
        self.assertLess(time.monotonic() - dns.answered, AT_MOST)


class BesideLldpd(Named):
    @beside_lldpd
    @unittest.skipUnless(os.access(DYNAMIC, os.X_OK),
                         "cargo: tools/release/live.sh --dynamic builds such an lldpa-live with it")
    def test_lldpd_sends_the_same_name(self) -> None:
        for name, hosts in (("web17", HOSTS), ("mail", HOSTS), ("web17", "127.0.0.1 localhost web17\n"),
                            ("web17.example.org", HOSTS)):
            self.hosts.write_text(hosts)
            peer = self.peer()
            lldpd = Lldpd(self.wires.here, self.folder, before=self.on(name))
            octets = peer.hears()
            lldpd.close()
            assert octets is not None
            with mock.patch("running_live.LIVE", DYNAMIC):
                live = self.on_host(name=name)
            self.is_named(live, dict(tlvs_of(octets))[SYSTEM_NAME].decode())
            live.close()
