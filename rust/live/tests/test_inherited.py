"""Tests what programs inherit, and that they trust no files in other users' folders."""

import os
import shutil
import stat
import subprocess
import sys
import unittest
from pathlib import Path
from unittest import mock

from running_live import LIVE, OnLinks
from patience import eventually
from served import REPOSITORY
from support import FilesCase

# becomes `nobody`, without capabilities, makes a user namespace, and prints the capabilities in it
NAMESPACE = """
import ctypes, os
libc = ctypes.CDLL(None)
libc.prctl(38, 1, 0, 0, 0)
os.setgroups([]), os.setresgid(65534, 65534, 65534), os.setresuid(65534, 65534, 65534)
if libc.unshare(0x10000000):
    raise SystemExit(77)
print(next(line for line in open("/proc/self/status") if line.startswith("CapEff")).split()[1])
"""


class OthersFolders(FilesCase):
    """Tests that programs run no files of the working folder or of PYTHONPATH."""

    def test_no_program_runs_code_of_its_environment(self) -> None:
        mark = self.folder / "mark"
        for name in ("argparse", "getopt", "json", "sitecustomize", "socket"):
            (self.folder / f"{name}.py").write_text(f"open({str(mark)!r}, 'w')\n")
        for program in {*(REPOSITORY / "bin").iterdir()} - {REPOSITORY / "bin" / "lldpa-live"}:
            subprocess.run([str(program), "--help"], cwd=self.folder, check=True,
                           env={**os.environ, "PYTHONPATH": str(self.folder)}, capture_output=True)
            self.assertFalse(mark.exists(), program)


class OfRoot(OnLinks):
    """Tests symbolic links, user namespaces, the session keyring, and an empty root folder."""

    def test_no_link_in_the_place_of_the_socket_is_followed(self) -> None:
        target = self.folder / "target"
        for name in ("control", "control.lock"):
            target.write_text("")
            target.chmod(0o600)
            folder = self.folder / name
            folder.mkdir()
            (folder / name).symlink_to(target)
            self.refuses(str(folder / "control"), "--control", str(folder / "control"),
                         "--control-group", "daemon", "eth0")
            self.assertEqual((stat.S_IMODE(target.stat().st_mode), target.stat().st_gid),
                             (0o600, 0))

    def test_a_user_namespace_has_all_capabilities_again(self) -> None:
        ran = subprocess.run([sys.executable, "-c", NAMESPACE], check=False, text=True,
                             stdout=subprocess.PIPE)
        if ran.returncode == 77:
            self.skipTest("user-namespaces: the kernel lets nobody make one here")
        self.assertNotEqual(int(ran.stdout, 16), 0)

    @unittest.skipUnless(shutil.which("strace"), "strace: it is not installed")
    def test_the_session_keyring_is_a_new_one(self) -> None:
        calls = self.folder / "calls"
        self.live("eth0", before=["strace", "-D", "-f", "-o", str(calls), "-e", "keyctl"])
        self.assertRegex(calls.read_text(), r"keyctl\(KEYCTL_JOIN_SESSION_KEYRING, NULL\) = \d")

    def test_it_runs_in_an_empty_root(self) -> None:
        if b"/ld-linux" in Path(LIVE).read_bytes():
            self.skipTest("this lldpa-live is linked to the C library of the system")
        root = self.folder / "root"
        root.mkdir()
        shutil.copy(LIVE, root)
        with mock.patch("running_live.LIVE", "/lldpa-live"):
            live = self.live("--control", "/run/control", "eth0", before=["chroot", str(root)],
                             awaits=False)
        live.control = str(root / "run" / "control")
        self.assertTrue(eventually(live.ask_quietly), live.errors())
        self.becomes_neighbor(live)
