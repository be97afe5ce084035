"""Tests what a running lldpa-live answers at its control socket, and to whom."""

import os
import socket
import time
from concurrent.futures import ThreadPoolExecutor
from contextlib import ExitStack, closing, suppress

from asking import Client
from lldpa import Refused, read_show
from running_live import OnLinks
from patience import SECONDS, eventually
from served import numbered, tlv

ORGANIZATIONAL = [tlv(127, bytes([0, 1, 2, kind]) + bytes(500)) for kind in range(2)]
MOST_CLIENTS, KEPT = 64, 8  # KEPT are for root and the owner
SECONDS_TO_READ = 10


def rest_of(connection: socket.socket) -> bytes:
    octets = b""
    with suppress(ConnectionResetError):
        while more := connection.recv(65536):
            octets += more
    return octets


class Answered(OnLinks):
    """Tests with a running lldpa-live of two ports."""

    links = 2

    def setUp(self) -> None:
        super().setUp()
        self.served = self.live("eth0", "eth1", "--", "--receive-only", "--max-neighbors", "128")

    def raw(self) -> socket.socket:
        """Opens a connection to the control socket."""
        connection = socket.socket(socket.AF_UNIX, socket.SOCK_STREAM)
        self.addCleanup(connection.close)
        connection.settimeout(SECONDS)
        connection.connect(self.served.control)
        return connection

    def said_to(self, octets: bytes) -> bytes:
        connection = self.raw()
        connection.sendall(octets)
        connection.shutdown(socket.SHUT_WR)
        return rest_of(connection)

    def fill(self) -> None:
        """Adds 128 neighbors to each port, so that `show neighbors` exceeds the socket buffer."""
        for port in ("0", "1"):
            peer = self.peer(f"peer{port}")
            for number in range(128):
                peer.send(numbered(number, 65535, *ORGANIZATIONAL))
            self.assertTrue(eventually(lambda: self.served.neighbors(f"eth{port}") == 128))


class Settings(Answered):
    """Tests that the journal says who has changed a setting."""

    def test_user_and_process_are_told(self) -> None:
        live = self.served
        line = 'configure system description "a b"'
        live.ask(line)
        self.assertTrue(live.says(f"lldpa-live: user 0 (process {os.getpid()}) has set: {line}\n"))
        self.assertEqual(live.ctl("configure", "ports", "eth0", "lldp", "status", "disabled"), "")
        self.assertTrue(live.says(" has set: configure ports eth0 lldp status disabled\n"))
        self.assertEqual(live.reload().returncode, 0)
        self.assertTrue(live.says("the settings were read again by user 0 (process "))

    def test_what_changes_nothing_is_not_told(self) -> None:
        for line in ("update", "show chassis", "configure lldp tx-hold 0", "configure ports eth9 lldp status disabled"):
            with suppress(Refused):
                self.served.ask(line)
        self.assertEqual(self.served.errors(), "")

    def test_they_do_not_fill_the_journal(self) -> None:
        with closing(Client(self.served.control)) as client:
            for number in range(150):
                client.ask(f"configure lldp tx-hold {1 + number % 99}")
        self.assertEqual(self.served.reload().returncode, 0)
        self.assertEqual(self.served.errors().count(" by user ") + self.served.errors().count(" has set: "), 100)

    def test_what_they_say_is_escaped(self) -> None:
        self.said_to(b'configure system description\t"a"\n')
        self.assertTrue(self.served.says(' has set: configure system description\\x09"a"\n'))


class Questions(Answered):
    def test_an_answer_is_counted(self) -> None:
        mac = self.wires.address("eth0").hex(":")
        self.served.ask("configure system hostname a")
        self.served.ask("configure system description b")
        shown = (f"=4\nlocal-chassis.mac={mac}\nlocal-chassis.name=a\nlocal-chassis.descr=b\n"
                 "local-chassis.caps=Station:on\n=0\n")
        self.assertEqual(self.said_to(b"show chassis\nupdate\n").decode(), shown)

    def test_the_last_line_may_lack_its_line_feed(self) -> None:
        self.assertEqual(self.said_to(b"\t\n# a comment\nshow foo"),
                         b"=0\n=0\n=1\nerror: unknown command\n")

    def test_a_refused_line_raises(self) -> None:
        for line, text in {"show": "unknown command", "configure lldp tx-hold 0": "out of range",
                           "configure ports eth9 lldp status disabled": "no such port",
                           'show "x': "bad quote", "help": "unknown command"}.items():
            self.assertEqual(self.served.ask_refused(line), text, line)

    def test_what_lldpa_live_alone_tells_never_reaches_the_agent(self) -> None:
        for word in ("tick", "rx", "up", "down"):
            for line in (word, f"\t {word} eth0", f'"{word}" 3', f"{word}\t00", f'"{word}"x'):
                self.assertEqual(self.served.ask_refused(line), "for lldpa-live alone")
        self.assertIn("lldp.eth0.received=0", self.served.ask("show statistics"))
        self.assertIn("live.eth0.link=up", self.served.ask("live"))

    def test_a_line_that_is_too_long_is_passed_over(self) -> None:
        lines = [b"s" * length + b"\nshow chassis\n" for length in (4097, 1_000_000)]
        answers = self.said_to(b"".join([*lines, b"#" * 4096 + b"\n"]))
        self.assertEqual(answers.count(b"=1\nerror: line too long\n=4\nlocal"), 2)
        self.assertTrue(answers.endswith(b"Station:on\n=0\n"))

    def test_a_line_without_end_takes_no_memory(self) -> None:
        connection = self.raw()
        before = self.served.resident("VmHWM")
        for _ in range(1000):
            connection.sendall(b"x" * 65536)
        self.assertLess(self.served.resident("VmHWM") - before, 1024)
        connection.sendall(b"\nshow foo\n")
        connection.shutdown(socket.SHUT_WR)
        self.assertEqual(rest_of(connection),
                         b"=1\nerror: line too long\n=1\nerror: unknown command\n")


class Clients(Answered):
    def test_64_clients_are_served_and_some_of_the_owner(self) -> None:
        with ExitStack() as stack:
            clients = [stack.enter_context(Client(self.served.control))
                       for _ in range(MOST_CLIENTS + KEPT)]
            for client in clients:
                self.assertEqual(len(client.ask("show chassis")), 4)
            with Client(self.served.control) as another, self.assertRaises(Refused) as refused:
                another.ask("show chassis")
            self.assertEqual(refused.exception.text, "too many clients")
            for client in clients:
                self.assertEqual(len(client.ask("show chassis")), 4)
            clients.pop().close()
            self.assertTrue(eventually(lambda: not self.served.ask_refused("show chassis")))

    def test_nobody_waits_for_a_client_that_never_reads_and_it_is_ended(self) -> None:
        self.fill()
        lazy, began = self.raw(), time.monotonic()
        lazy.sendall(b"show neighbors\n" * 100)
        with Client(self.served.control) as client:
            for _ in range(10):
                self.assertEqual(len(client.ask("show chassis")), 4)
        self.assertLess(time.monotonic() - began, SECONDS_TO_READ)
        self.assertLess(self.served.resident("VmHWM"), 16_000)
        time.sleep(SECONDS_TO_READ + 2)  # meanwhile it is disconnected
        answer = rest_of(lazy)
        self.assertLess(answer.count(b"\n"), 2 * int(answer[1:answer.index(b"\n")]))

    def test_slow_clients_get_all_and_answers_that_wait_take_bounded_memory(self) -> None:
        self.fill()
        wanted = len(self.served.ask("show neighbors"))
        lazy = [self.raw() for _ in range(MOST_CLIENTS)]
        for one in lazy:
            one.sendall(b"show neighbors\n")
        self.assertEqual(len(self.served.ask("show chassis")), 4)
        self.assertLess(self.served.resident("VmHWM"), 100_000)
        slow, octets = lazy.pop(), b""
        for one in lazy:
            one.close()
        slow.shutdown(socket.SHUT_WR)
        for _ in range(8):
            time.sleep(0.5)
            octets += slow.recv(20_000)
        octets += rest_of(slow)
        self.assertEqual((octets.count(b"\n"), octets[:octets.index(b"\n")]),
                         (wanted + 1, b"=%d" % wanted))

    def test_answers_are_whole_under_load(self) -> None:
        def ask_often() -> None:
            with Client(self.served.control) as client:
                for _ in range(10):
                    read_show(client.ask("show neighbors"))
                    self.assertEqual(len(client.ask("show chassis")), 4)

        with ThreadPoolExecutor(16) as pool:
            asking = [pool.submit(ask_often) for _ in range(16)]
            peer = self.peer("peer1")
            for number in range(200):
                peer.send(numbered(number % 100, 100 + number))
        for one in asking:
            one.result()  # raises what went wrong
