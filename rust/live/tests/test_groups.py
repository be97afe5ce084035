"""Tests `--control-group` with groups that only the name service knows, with unknown ones, and with
those that come later. A process without rights need not belong to the group that it lets in."""

import os
import platform
import shutil
import subprocess
import sys
import unittest
from pathlib import Path
from unittest import mock

from patience import eventually
from running_live import LIVE, Live
from served import REPOSITORY
from test_control_paths import Asking
from test_unit_filter import AS_THE_UNIT, LIMIT, NUMBERS, filter_of_unit

DYNAMIC = os.environ.get("LLDPA_LIVE_DYNAMIC") or str(
    REPOSITORY / "rust" / "live" / "out" / "dynamic" / "lldpa-live")
EXTRA_USERS = Path("/var/lib/extrausers")  # where Debian's libnss-extrausers reads groups
NUMBER = 23456
# runs a program in a mount namespace with another nsswitch.conf and another folder of extrausers
NAMES = ["unshare", "--mount", "sh", "-c", f'mount --bind "$1/nsswitch.conf" /etc/nsswitch.conf && '
         f'mount --bind "$1" {EXTRA_USERS} && shift && exec "$@"', "sh"]
# the same with another /etc/group
FILE = ["unshare", "--mount", "sh", "-c",
        'mount --bind "$1" /etc/group && shift && exec "$@"', "sh"]
OF_DAEMON = 1  # its group
LATER = 20.0  # seconds; lldpa-live asks again each ten
SET_BY_A_MEMBER = r"^lldpa-live: user 12345 \(process \d+\) has set: configure lldp tx-hold 5\n$"


class Started(Asking):
    def started(self, group: str, program: str, **options: "list[str]") -> Live:
        with mock.patch("running_live.LIVE", program):
            live = self.live("--control", self.path, "--control-group", group, "eth0", awaits=False,
                             **options)
        live.control = self.path
        self.assertTrue(eventually(live.answers))
        self.assertIsNone(live.process.poll(), live.errors())
        return live


class Groups(Started):
    @unittest.skipUnless(EXTRA_USERS.is_dir(), "libnss-extrausers: it is not installed")
    @unittest.skipUnless(os.access(DYNAMIC, os.X_OK),
                         "cargo: tools/release/live.sh --dynamic builds such an lldpa-live with it")
    def test_members_of_a_group_of_the_name_service_may_ask(self) -> None:
        names = self.folder / "names"
        names.mkdir()
        (names / "nsswitch.conf").write_text("passwd: files\ngroup: files extrausers\n")
        (names / "group").write_text(f"lldpa-remote:x:{NUMBER}:\n")
        live = self.started("lldpa-remote", DYNAMIC, before=[*NAMES, str(names)])
        told = os.stat(self.path)
        self.assertEqual((told.st_mode & 0o777, told.st_gid), (0o660, NUMBER))
        self.assertEqual(self.ask(self.asker(NUMBER), "configure lldp tx-hold 5"), "['=0']")
        self.assertEqual(self.ask(self.asker(), "show chassis"), "")
        self.assertRegex(live.errors(), SET_BY_A_MEMBER)

    def test_an_unknown_group_is_said_and_ends_nothing(self) -> None:
        for program in (LIVE, DYNAMIC):
            if not os.access(program, os.X_OK):
                continue
            live = self.started("lldpa-none", program)
            self.assertEqual(os.stat(self.path).st_mode & 0o777, 0o600)
            self.assertEqual(self.ask(self.asker(), "show chassis"), "")
            self.assertTrue(live.says("lldpa-none"))
            self.assertEqual(live.errors().count("\n"), 1)
            self.becomes_neighbor(live)
            self.assertEqual(live.ended(), 0)

    def test_a_group_can_be_a_number(self) -> None:
        self.started(str(NUMBER), LIVE)
        self.assertEqual(os.stat(self.path).st_gid, NUMBER)
        self.assertEqual(self.ask(self.asker(NUMBER), "update"), "['=0']")


class WithoutRights(Started):
    """Tests an lldpa-live that runs as a user of its own, as the service does."""

    def setUp(self) -> None:
        super().setUp()
        self.folder.chmod(0o777)
        self.groups = self.folder / "group"
        self.groups.write_text(Path("/etc/group").read_text())
        self.before = [*FILE, str(self.groups), *AS_THE_UNIT]

    def make(self, group: str) -> None:
        with self.groups.open("a") as file:
            file.write(f"{group}:x:{NUMBER}:\n")

    def is_let_in(self) -> None:
        """Checks that the members of the group may do all, and nobody else anything."""
        self.assertEqual(self.ask(self.asker(NUMBER), "configure lldp tx-hold 5"), "['=0']")
        for groups in ((), (OF_DAEMON,)):
            self.assertEqual(self.ask(self.asker(*groups), "show chassis"), "")

    def test_it_need_not_belong_to_the_group(self) -> None:
        self.make("lldpa-ops")
        live = self.started("lldpa-ops", LIVE, before=self.before)
        self.is_let_in()
        self.assertRegex(live.errors(), SET_BY_A_MEMBER)
        os.chmod(self.path, 0o600)
        self.assertEqual(self.ask(self.asker(NUMBER), "show chassis"), "")
        os.chmod(self.path, 0o666)
        stranger = self.asker()
        self.assertTrue(self.ask(stranger, "show chassis").startswith("['=4'"))
        self.assertEqual(self.ask(stranger, "update"), "['=1', 'error: no permission']")

    def test_where_a_file_has_no_list_of_rights_it_runs_without_the_group(self) -> None:
        self.make("lldpa-ops")
        folder = self.folder / "plain"
        folder.mkdir()
        subprocess.run(["mount", "-t", "ramfs", "none", str(folder)], check=True)
        self.addCleanup(lambda: subprocess.run(["umount", "-l", str(folder)], check=True))
        folder.chmod(0o777)
        self.path = str(folder / "control")
        live = self.started("lldpa-ops", LIVE, before=self.before)
        self.assertTrue(live.says("the group cannot use this control socket: "))
        self.assertEqual(self.ask(self.asker(NUMBER), "show chassis"), "")
        self.becomes_neighbor(live)

    def test_a_group_that_comes_later_is_let_in_then(self) -> None:
        live = self.started("lldpa-ops", LIVE, before=self.before)
        self.assertTrue(live.says("group lldpa-ops is not known"))
        self.assertEqual(self.ask(self.asker(NUMBER), "show chassis"), "")
        self.make("lldpa-ops")  # lldpa-live looks for it each 10 seconds
        self.assertTrue(live.says("group lldpa-ops may use the control socket from now on", LATER))
        self.is_let_in()
        self.assertEqual(live.ended(), 0)

    @unittest.skipUnless(platform.machine() == "x86_64",
                         "x86-64: it has the numbers of its calls")
    @unittest.skipUnless(shutil.which("systemd-analyze"), "systemd-analyze: it is not installed")
    @unittest.skipUnless(NUMBERS.exists(), "linux-libc-dev: it is not installed")
    def test_it_is_let_in_later_also_under_the_filter_of_the_unit(self) -> None:
        filtered = [sys.executable, "-c", LIMIT, filter_of_unit().hex()]
        live = self.started("lldpa-ops", LIVE, before=[*self.before, *filtered])
        self.make("lldpa-ops")
        self.assertTrue(live.says("group lldpa-ops may use the control socket from now on", LATER),
                        live.errors())
        self.is_let_in()
