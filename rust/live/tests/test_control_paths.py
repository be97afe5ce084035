"""Tests which process gets the path of the control socket, and what users may do there."""

import os
import select
import shutil
import signal
import socket
import subprocess
import sys
from pathlib import Path
from typing import Any

from asking import Client, Gone
from lldpa import Refused
from patience import eventually
from running_live import Live, OnLinks
from served import numbered

IN_USE = "another lldpa-live answers at this control path"
ASKER = """
import os, socket, sys
os.setgroups([int(group) for group in sys.argv[3:]])
os.setgid(12345)
os.setuid(int(sys.argv[2]))
connection = socket.socket(socket.AF_UNIX, socket.SOCK_STREAM)
connection.connect(sys.argv[1])
for line in sys.stdin:
    connection.sendall(line.encode())
    print(connection.recv(65536).decode().splitlines(), flush=True)
"""
STRANGER, OWNER = 12345, 65534


class AtAPath(OnLinks):
    """Tests with a path for the control socket."""

    def setUp(self) -> None:
        super().setUp()
        self.path = str(self.folder / "control")

    def at_path(self, *words: str, **options: Any) -> Live:
        live = self.live("--control", self.path, *words, "eth0", awaits=False, **options)
        live.control = self.path
        self.assertTrue(eventually(live.answers))
        return live

    def fails(self, text: str, path: str = "") -> None:
        """Checks that lldpa-live cannot use this path, and reports this text."""
        self.refuses(text, "--control", path or self.path, "eth0")


class Paths(AtAPath):
    def test_a_path_in_use_is_left_alone(self) -> None:
        first = self.at_path()
        for _ in range(2):
            self.fails(f"{self.path}: {IN_USE}")
        self.assertEqual(len(first.ask("show chassis")), 4)
        first.signal(signal.SIGSTOP)
        self.fails(IN_USE)

    def test_the_socket_of_a_killed_lldpa_live_is_taken_over(self) -> None:
        self.at_path().ended(signal.SIGKILL)
        with self.assertRaises(ConnectionRefusedError):
            Client(self.path)
        self.assertEqual(len(self.at_path().ask("show chassis")), 4)

    def test_a_file_and_the_socket_of_another_program_are_left_alone(self) -> None:
        Path(self.path).write_text("kept")
        self.fails(f"{self.path}: this is not a socket")
        self.assertEqual(Path(self.path).read_text(), "kept")
        os.unlink(self.path)
        with socket.socket(socket.AF_UNIX, socket.SOCK_STREAM) as other:
            other.bind(self.path)
            other.listen(1)
            self.fails(IN_USE)
            self.assertTrue(os.path.exists(self.path))

    def test_after_the_end_nobody_answers_and_the_next_one_may_begin(self) -> None:
        live = self.at_path()
        clients = [Client(self.path) for _ in range(20)]
        self.assertEqual(live.ended(), 0)
        for client in clients:
            with client, self.assertRaises(Gone):
                client.ask("show chassis")
        with self.assertRaises(ConnectionRefusedError):  # the socket is there: nobody removes it
            Client(self.path)
        self.assertEqual(len(self.at_path().ask("show chassis")), 4)

    def test_a_folder_that_is_missing_is_made(self) -> None:
        self.path = str(self.folder / "lldpa" / "control")
        self.at_path()
        self.assertEqual(os.stat(os.path.dirname(self.path)).st_mode & 0o777, 0o755)
        self.fails("No such file or directory", str(self.folder / "a" / "b" / "control"))

    def test_what_was_removed_is_said_and_made_by_a_restart(self) -> None:
        self.path = str(self.folder / "lldpa" / "control")
        for removed in (self.path, self.folder / "lldpa"):
            live = self.at_path()
            with Client(self.path) as client:
                shutil.rmtree(removed) if os.path.isdir(removed) else os.unlink(removed)
                self.assertTrue(live.says(f"{self.path}: the control socket was removed; "
                                          "a restart makes it again"))
                self.assertEqual(len(client.ask("show chassis")), 4)
            self.assertEqual(live.ended(), 0)
            live = self.at_path()
            self.assertEqual(len(live.ask("show chassis")), 4)
            self.assertEqual(live.ended(), 0)


class Asking(AtAPath):
    """Tests with processes of other users that ask."""

    def asker(self, *groups: int, user: int = STRANGER) -> "subprocess.Popen[str]":
        """Starts a process of this user. The process sends lldpa-live each line that it reads, and
        prints the answer."""
        words = [sys.executable, "-c", ASKER, self.path, str(user), *map(str, groups)]
        asker = subprocess.Popen(words, stdin=subprocess.PIPE, stdout=subprocess.PIPE,
                                 stderr=subprocess.DEVNULL, text=True)
        self.addCleanup(asker.communicate)
        return asker

    def ask(self, asker: "subprocess.Popen[str]", line: str) -> str:
        """Returns what the process prints as the answer, or an empty text if the process failed."""
        assert asker.stdin is not None and asker.stdout is not None
        try:
            asker.stdin.write(line + "\n")
            asker.stdin.flush()
        except BrokenPipeError:
            return ""
        return asker.stdout.readline().strip()


class Permission(Asking):
    """Tests what the owner, members of the group, and other users may do."""

    def test_only_root_and_the_owner_connect_without_a_group(self) -> None:
        self.at_path(umask=0)
        self.assertEqual(os.stat(self.path).st_mode & 0o777, 0o600)
        self.assertEqual(self.ask(self.asker(), "show chassis"), "")

    def test_members_of_the_group_may_do_all(self) -> None:
        self.at_path("--control-group", "daemon")
        self.assertEqual(os.stat(self.path).st_mode & 0o777, 0o660)
        self.assertEqual(self.ask(self.asker(), "show chassis"), "")
        member = self.asker(1)
        self.assertTrue(self.ask(member, "show chassis").startswith("['=4'"))
        self.assertEqual(self.ask(member, "configure lldp tx-hold 5"), "['=0']")
        os.chmod(self.path, 0o600)
        self.assertEqual(self.ask(member, "update"), "['=1', 'error: no permission']")

    def test_the_owner_may_do_all_until_the_right_is_taken_away(self) -> None:
        self.at_path()
        os.chown(self.path, OWNER, -1)
        owner = self.asker(user=OWNER)
        self.assertEqual(self.ask(owner, "update"), "['=0']")
        os.chmod(self.path, 0o466)
        self.assertEqual(self.ask(owner, "update"), "['=1', 'error: no permission']")

    def test_who_was_let_in_to_ask_may_not_change(self) -> None:
        live = self.at_path()
        os.chmod(self.path, 0o666)
        stranger = self.asker()
        self.assertTrue(self.ask(stranger, "show chassis").startswith("['=4'"))
        for line in ("configure lldp tx-hold 5", '  "configure" lldp tx-hold 5', "update"):
            self.assertEqual(self.ask(stranger, line), "['=1', 'error: no permission']")
        self.assertIn("configuration.tx-hold=4", live.ask("show configuration"))
        self.assertEqual(live.ask("configure lldp tx-hold 5"), [])

    def test_users_who_watch_leave_places_for_root(self) -> None:
        self.at_path()
        os.chmod(self.path, 0o666)
        os.seteuid(STRANGER)
        self.addCleanup(os.seteuid, 0)
        *strangers, last = [self.client() for _ in range(17)]
        os.seteuid(0)
        for one in [*strangers, self.client()]:
            one.seconds = 0.1
            self.assertRaises(TimeoutError, one.ask, "changes 0")
        with self.assertRaisesRegex(Refused, "^16 clients watch already$"):
            last.ask("changes 0")

    def test_32_clients_watch_and_are_told_the_same(self) -> None:
        self.at_path()
        os.chmod(self.path, 0o666)
        os.seteuid(STRANGER)
        self.addCleanup(os.seteuid, 0)
        strangers = [self.client() for _ in range(17)]
        os.seteuid(0)
        ours = [self.client() for _ in range(17)]
        for *watching, last in (strangers, ours):
            for one in watching:
                self.assertEqual(one.ask("watch")[0], "lldp.eth0.neighbors=0")
                self.assertEqual(one.answer(), ["live.lost=0"])
            with self.assertRaisesRegex(Refused, "^16 clients watch already$"):
                last.ask("watch")
        self.peer().send(numbered(1))
        told = [one.answer() for one in strangers[:-1] + ours[:-1]]
        self.assertRegex(told[0][0], "^live.eth0.change=came .* ifname=p1$")
        self.assertEqual(told, [told[0]] * 32)

    def client(self) -> Client:
        client = Client(self.path)
        self.addCleanup(client.close)
        return client

    def test_idle_clients_lock_nobody_out(self) -> None:
        live = self.at_path()
        os.chmod(self.path, 0o666)
        watch = self.client()  # of root, and idle longest
        watch.connection.sendall(b"changes 0\n")
        idle = [self.asker() for _ in range(63)]
        for one in idle:
            self.assertTrue(self.ask(one, "show chassis").startswith("['=4'"))
        self.assertIn("too many clients", self.ask(self.asker(), "show chassis"))
        self.assertEqual(len(live.ask("show chassis")), 4)  # root has places of its own
        busy = idle.pop()
        served = lambda: (self.ask(busy, "show chassis").startswith("['=4'")
                          and self.ask(self.asker(), "show chassis").startswith("['=4'"))
        self.assertTrue(eventually(served, 75))
        self.assertTrue(self.ask(busy, "show chassis").startswith("['=4'"))
        self.assertFalse(select.select([watch.connection], [], [], 0)[0], "root's watch goes on")
