"""Tests lldpa-live under the filter of system calls that its unit has."""

import errno
import platform
import re
import shutil
import struct
import subprocess
import sys
import unittest
from pathlib import Path
from typing import Iterator

from heard import Heard
from running_live import LIVE, OnLinks
from served import REPOSITORY

UNIT = REPOSITORY / "share" / "systemd" / "lldpa.service"
# the numbers of x86-64, with which linux/audit.h names its architecture
NUMBERS = Path("/usr/include/x86_64-linux-gnu/asm/unistd_64.h")
PR_SET_NO_NEW_PRIVS, PR_SET_SECCOMP, MODE_FILTER = 38, 22, 2
AS_THE_UNIT = ["setpriv", "--reuid=daemon", "--regid=daemon", "--clear-groups",
               "--inh-caps=+net_raw", "--ambient-caps=+net_raw", "--bounding-set=-all,+net_raw"]
LOAD, EQUAL, ANSWER = 0x20, 0x15, 0x06  # operations of linux/filter.h
ALLOW, REFUSE = 0x7FFF0000, 0x00050000 | errno.EPERM
# sets the filter whose steps are the first word, then becomes the program that the others name
LIMIT = f"""
import ctypes, os, struct, sys
steps = bytes.fromhex(sys.argv[1])
room = ctypes.create_string_buffer(steps, len(steps))
program = struct.pack("HxxxxxxP", len(steps) // 8, ctypes.addressof(room))
libc = ctypes.CDLL(None)
libc.prctl({PR_SET_NO_NEW_PRIVS}, 1, 0, 0, 0)
assert libc.prctl({PR_SET_SECCOMP}, {MODE_FILTER}, program, 0, 0) == 0
os.execv(sys.argv[2], sys.argv[2:])
"""


def allowed(words: "list[str]") -> Iterator[str]:
    """Yields the names of system calls that a unit's words allow. A word with `@` is a set."""
    for word in words:
        if word.startswith("@"):
            shown = subprocess.run(["systemd-analyze", "syscall-filter", word], text=True,
                                   capture_output=True, check=True).stdout
            yield from allowed(re.findall(r"^ +([@\w]+)$", shown, re.M))
        else:
            yield word


def filter_of_unit() -> bytes:
    """Returns the steps that allow what the unit allows, and refuse all other calls by EPERM."""
    text = UNIT.read_text()
    names = set(allowed(" ".join(re.findall("^SystemCallFilter=(.*)$", text, re.M)).split()))
    numbers = dict(re.findall(r"^#define __NR_(\w+) (\d+)$", NUMBERS.read_text(), re.M))
    steps = [struct.pack("HBBI", LOAD, 0, 0, 0)]
    for name in sorted(names & set(numbers)):
        steps.append(struct.pack("HBBI", EQUAL, 0, 1, int(numbers[name])))
        steps.append(struct.pack("HBBI", ANSWER, 0, 0, ALLOW))
    return b"".join([*steps, struct.pack("HBBI", ANSWER, 0, 0, REFUSE)])


@unittest.skipUnless(platform.machine() == "x86_64", "x86-64: it has the numbers of its calls")
@unittest.skipUnless(shutil.which("systemd-analyze"), "systemd-analyze: it is not installed")
@unittest.skipUnless(NUMBERS.exists(), "linux-libc-dev: it is not installed")
class UnitFilter(OnLinks):
    def test_it_runs_and_sets_its_own_filter(self) -> None:
        settings, heard = self.folder / "settings", Heard(self.folder)
        self.addCleanup(heard.close)
        settings.write_text("configure lldp tx-interval 17\n")
        self.folder.chmod(0o777)
        live = self.live("--keep-state", "--config", str(settings), "--control-group", "daemon",
                         "--events", "eth0", env=heard.environment(),
                         before=[*AS_THE_UNIT, sys.executable, "-c", LIMIT, filter_of_unit().hex()])
        self.becomes_neighbor(live)
        for status in Path(f"/proc/{live.process.pid}/task").glob("*/status"):
            self.assertIn("\nSeccomp_filters:\t2\n", status.read_text())
        settings.write_text("configure lldp tx-interval 19\n")
        told = subprocess.run([sys.executable, "-c", LIMIT, filter_of_unit().hex(),
                               str(Path(LIVE).with_name("lldpa-ctl")),
                               "--control", live.control, "reload", str(settings)],
                              capture_output=True, text=True, check=False)
        self.assertEqual((told.returncode, told.stderr), (0, ""))
        self.assertIn("configuration.tx-interval=19", live.ask("show configuration"))
        self.assertTrue(heard.hears("FDSTORE=1"))
        self.assertEqual(live.ended(), 0)
        said = live.errors().splitlines()
        self.assertEqual([line for line in said if "came: " not in line and "link is" not in line
                          and "settings were read" not in line], [])
