"""Tests what must not keep the agent down, or silent: a read-only root, no file of options, and a
disk of settings that does not answer."""

import re
import shlex
import subprocess
import tempfile
import time
from pathlib import Path

from calls import needs_strace
from patience import by_the_clock, eventually
from running_live import Live, OnLinks
from served import CTL, REPOSITORY, numbered
from slowed import slow_calls

UNIT = REPOSITORY / "share" / "systemd" / "lldpa.service"
# makes all that is mounted read-only, but what is only in memory, and tries that it is
READ_ONLY = """
mount --make-rprivate /
for folder in / /var /tmp /home /etc; do
    ! mountpoint -q "$folder" || mount -o remount,bind,ro "$folder" || exit 9
done
! touch /var/lib/probe /etc/probe 2> /dev/null || exit 9
exec "$@"
"""
SLOW = 3.0  # seconds of a call


class Conditions(OnLinks):
    def setUp(self) -> None:
        super().setUp()
        run = tempfile.TemporaryDirectory(dir="/dev/shm")
        self.addCleanup(run.cleanup)
        self.run_folder = Path(run.name)
        self.run_folder.chmod(0o777)

    def words(self) -> "list[str]":
        """Returns the words of the unit, as they are without /etc/default/lldpa."""
        text = UNIT.read_text()
        self.assertIn("\nEnvironmentFile=-/etc/default/lldpa\n", text)
        given = dict(re.findall("^Environment=([A-Z_]+)=(.*)$", text, re.M))
        command, = re.findall("^ExecStart=\\S+ (.*)$", text, re.M)
        command = command.replace("${RUNTIME_DIRECTORY}", str(self.run_folder))
        return shlex.split(re.sub(r"\$([A-Z_]+)", lambda one: given.get(one[1], ""), command))

    def started(self, words: "list[str]", **options: "list[str]") -> Live:
        live = self.live(*words, awaits=False, **options)
        live.control = str(self.run_folder / "control")
        self.assertTrue(eventually(lambda: live.answers() or live.has("live.agent=waiting")))
        self.assertIsNone(live.process.poll(), live.errors())
        return live

    def test_without_the_file_of_options_it_runs_and_takes_hardware_as_it_comes(self) -> None:
        live = self.started(self.words())
        self.assertIn("live.agent=waiting", live.ask("live"), "there is no hardware here")
        self.assertEqual(live.ended(), 0)

    def test_a_read_only_root(self) -> None:
        words = [word if word != "*" else "eth0" for word in self.words()]
        live = self.started(words, before=["unshare", "--mount", "sh", "-c", READ_ONLY, "sh"])
        peer = self.peer()
        self.assertIsNotNone(peer.hears())
        self.becomes_neighbor(live, numbered(1), peer)
        self.assertEqual(live.ended(), 0)
        self.assertIsNotNone(peer.hears(2, ttl=0))

    @needs_strace
    @by_the_clock
    def test_settings_on_a_disk_that_does_not_answer(self) -> None:
        """Only the client that reads them waits; the agent speaks each second meanwhile."""
        settings = self.folder / "settings"
        settings.mkdir()
        for number in range(3):
            (settings / f"{number}.conf").write_text(f"configure lldp tx-hold {3 + number}\n")
        live, peer = self.live("eth0"), self.peer()
        live.ask("configure lldp tx-interval 1")
        self.assertIsNotNone(peer.hears())
        client = subprocess.Popen([CTL, "--control", live.control, "reload", str(settings)],
                                  preexec_fn=lambda: time.sleep(0.5))
        self.addCleanup(client.wait)
        self.addCleanup(client.kill)
        with slow_calls(client.pid, SLOW, "openat,read,statx,getdents64"):
            longest, last = 0.0, time.monotonic()
            while client.poll() is None:
                self.assertIsNotNone(peer.hears())
                longest, last = max(longest, time.monotonic() - last), time.monotonic()
        self.assertEqual(client.wait(), 0)
        self.assertLess(longest, 2)
        self.assertIn("configuration.tx-hold=5", live.ask("show configuration"))
