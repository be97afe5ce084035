"""Tests `--control-group` with a name service that answers late, or never: nothing waits for it,
and the one process that asks it ends with lldpa-live."""

import os
import shutil
import signal
import time
import unittest
from pathlib import Path

from patience import eventually
from running_live import Live
from test_groups import DYNAMIC, EXTRA_USERS, LATER, NAMES, NUMBER, Started
from test_rights import status_of
from test_unit_filter import AS_THE_UNIT

GROUP = f"lldpa-{os.getpid()}"  # a name of its own: other tests may run beside these
START = 5.0  # seconds


def askers() -> "list[int]":
    """Returns the processes that look for the group."""
    found = []
    for path in Path("/proc").glob("[0-9]*/cmdline"):
        try:
            words = path.read_bytes().split(b"\0")
        except OSError:  # it has ended
            continue
        if words[1:3] == [b"--number-of-group", GROUP.encode()]:
            found.append(int(path.parent.name))
    return found


@unittest.skipUnless(EXTRA_USERS.is_dir(), "libnss-extrausers: it is not installed")
@unittest.skipUnless(os.access(DYNAMIC, os.X_OK),
                     "cargo: tools/release/live.sh --dynamic builds such an lldpa-live with it")
class Hanging(Started):
    def begun(self, *rights: str) -> Live:
        """Starts an lldpa-live whose name service hangs."""
        self.folder.chmod(0o777)
        names = self.folder / "names"
        names.mkdir()
        (names / "nsswitch.conf").write_text("passwd: files\ngroup: files extrausers\n")
        os.mkfifo(names / "group")  # a reader waits until somebody writes
        began = time.monotonic()
        live = self.started(GROUP, DYNAMIC, before=[*NAMES, str(names), *rights])
        self.assertLess(time.monotonic() - began, START)
        self.assertTrue(live.says(f"group {GROUP} is not known"))
        self.becomes_neighbor(live)
        return live

    def has_one_asker(self) -> None:
        """Checks that one process asks, and that it is not root and has no right."""
        self.assertEqual(len(askers()), 1)
        status = status_of(askers()[0])
        self.assertNotIn("0", status["Uid"].split())
        for kind in ("CapInh", "CapPrm", "CapEff", "CapAmb"):
            self.assertEqual(int(status[kind], 16), 0, kind)
        self.assertEqual(status["NoNewPrivs"].strip(), "1")

    def test_a_name_service_that_answers_late_holds_nothing_up(self) -> None:
        live = self.begun(*AS_THE_UNIT)
        self.has_one_asker()
        for number in (signal.SIGHUP, signal.SIGINT, signal.SIGTERM):
            os.kill(askers()[0], number)  # as a terminal and systemd do
        with (self.folder / "names" / "group").open("w") as file:
            file.write(f"{GROUP}:x:{NUMBER}:\n")
        self.assertTrue(live.says("may use the control socket from now on", LATER))
        self.assertEqual(self.ask(self.asker(NUMBER), "configure lldp tx-hold 5"), "['=0']")
        self.assertEqual(self.ask(self.asker(), "show chassis"), "")
        self.assertTrue(eventually(lambda: not askers()))
        self.assertNotIn("no longer looked for", live.errors())

    def leaves_no_process(self, *rights: str) -> None:
        for number in (signal.SIGTERM, signal.SIGKILL):
            live = self.begun(*rights)
            self.has_one_asker()
            live.ended(number)
            self.assertTrue(eventually(lambda: not askers()), number)
            shutil.rmtree(self.folder / "names")

    def test_the_process_that_asks_ends_with_an_lldpa_live_of_root(self) -> None:
        self.leaves_no_process()

    def test_the_process_that_asks_ends_with_the_service(self) -> None:
        self.leaves_no_process(*AS_THE_UNIT)
