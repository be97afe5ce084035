"""Tests the service under a systemd that boots in a container: what it does to an lldpa-live that hangs, that is killed,
or that has wrong options, and how it is installed, upgraded and removed without packages."""

import os
import shutil
import signal
import subprocess
import time
import unittest

from booted import NSPAWN, Booted
from patience import HANGS, eventually
from served import LIVE, PROGRAM, REPOSITORY, is_built, numbered
from wires import Peer, Wires, ttl_of

PREFIX = "/opt/lldpa"
SCRIPT = "/src/tools/release/install.sh"
COPY = f"LLDPA=/built/lldpa LLDPA_LIVE=/built/lldpa-live {SCRIPT} {PREFIX}"
INSTALL = f"""
{COPY}
systemctl link {PREFIX}/lib/systemd/system/*
"""
CTL = f"{PREFIX}/bin/lldpa-ctl"
MOST_RESTARTS = 5  # within ten seconds: systemd starts a unit that ends more often no more


@is_built
@unittest.skipUnless(os.geteuid() == 0, "root: only root boots a container")
@unittest.skipUnless(shutil.which("ip"), "ip: it is not installed")
@unittest.skipUnless(shutil.which(NSPAWN), f"{NSPAWN}: it is not installed")
class Installed(unittest.TestCase):
    """A container in which root has installed lldpa, and started the service for eth0."""

    @classmethod
    def setUpClass(cls) -> None:
        cls.wires = Wires()
        cls.addClassCleanup(cls.wires.close)
        cls.host = Booted(cls.wires, f"{REPOSITORY}:/src", f"{PROGRAM}:/built/lldpa", f"{LIVE}:/built/lldpa-live")
        cls.addClassCleanup(cls.host.close)
        fault = cls.host.boot()
        if fault:
            raise unittest.SkipTest(f"booted-systemd: {fault}")
        installed = cls.host.run("sh", "-euc", INSTALL)
        assert installed.returncode == 0, installed
        folder = cls.host.root / PREFIX[1:] / "etc"
        cls.options, cls.settings = folder / "default/lldpa", folder / "lldpa.d"
        cls.given = cls.options.read_text().replace('PORTS="*"', 'PORTS="eth0"')
        cls.options.write_text(cls.given)

    def setUp(self) -> None:
        self.run_in_it("systemctl", "stop", "lldpa")
        self.peer = Peer(self.wires, "peer0")
        self.addCleanup(self.peer.close)
        self.run_in_it("systemctl", "start", "lldpa")
        self.hears_it()

    def hears_it(self) -> None:
        """Waits until the peer hears the service, and not its goodbye."""
        while not ttl_of(self.peer.hears(HANGS) or self.fail("it sends nothing")):
            pass

    def run_in_it(self, *words: str) -> str:
        """Runs a command that must succeed in the container. Returns what it writes."""
        ended = self.host.run(*words)
        journal = self.host.run("journalctl", "-n", "30", "-o", "cat").stdout if ended.returncode else ""
        self.assertEqual(ended.returncode, 0, f"{words}: {ended.stdout}{ended.stderr}{journal}")
        return ended.stdout

    def process(self) -> int:
        """Returns the process of the service as the container sees it, or 0."""
        return int(self.host.show("lldpa", "MainPID") or 0)

    def send(self, name: str) -> None:
        self.run_in_it("kill", f"-{name}", str(self.process()))

    def has_neighbor(self, name: str) -> bool:
        return name in self.run_in_it(CTL, "show", "neighbors")

    def runs_anew(self, old: int) -> bool:
        """True if another process than `old` answers."""
        return self.process() not in (0, old) and self.host.run(CTL, "show", "chassis").returncode == 0


class TestUnit(Installed):
    def test_start(self) -> None:
        """`systemctl start` ends when the service answers, and not before."""
        self.run_in_it("systemctl", "stop", "lldpa")
        self.run_in_it("systemctl", "start", "lldpa")
        self.assertIn("Station:on", self.run_in_it(CTL, "show", "chassis"))

    def test_hangs(self) -> None:
        """One that hangs says goodbye to its peers, and is started again."""
        old = self.process()
        self.send("STOP")
        self.assertIsNotNone(self.peer.hears(HANGS, ttl=0), "no goodbye")
        self.assertTrue(eventually(lambda: self.runs_anew(old), HANGS))

    def test_killed(self) -> None:
        """One that is killed as often as it starts is started again each time."""
        for _ in range(MOST_RESTARTS + 1):
            old = self.process()
            self.send("KILL")
            self.assertTrue(eventually(lambda: self.runs_anew(old), HANGS),
                            self.host.run("systemctl", "status", "lldpa").stdout)

    def test_wrong_options(self) -> None:
        """Status 2 is for wrong options, which another start would not mend."""
        self.addCleanup(self.options.write_text, self.given)
        self.options.write_text(self.given.replace('LIVE_OPTIONS="', 'LIVE_OPTIONS="--no-such '))
        self.assertNotEqual(self.host.run("systemctl", "restart", "lldpa").returncode, 0)
        self.assertTrue(eventually(lambda: self.host.show("lldpa", "ActiveState") == "failed"),
                        self.host.run("systemctl", "status", "lldpa").stdout)
        self.assertEqual([self.host.show("lldpa", name) for name in ("ExecMainStatus", "NRestarts")], ["2", "0"])

    def test_read_only(self) -> None:
        """It starts, keeps its neighbors and says goodbye where nothing but /run can be written."""
        self.addCleanup(self.run_in_it, "mount", "-o", "remount,bind,rw", "/")
        self.run_in_it("mount", "-o", "remount,bind,ro", "/")
        self.assertNotEqual(self.host.run("touch", "/var/here", "/here").returncode, 0)
        self.peer.send(numbered(7))
        self.assertTrue(eventually(lambda: self.has_neighbor("p7"), HANGS))
        old = self.process()
        self.run_in_it("systemctl", "restart", "lldpa")
        self.assertTrue(eventually(lambda: self.runs_anew(old), HANGS))
        self.assertTrue(self.has_neighbor("p7"))
        self.hears_it()
        self.run_in_it("systemctl", "stop", "lldpa")
        self.assertIsNotNone(self.peer.hears(HANGS, ttl=0), "no goodbye")

    def test_upgrade(self) -> None:
        """Who installs another release over this one, and restarts the service, keeps configuration and neighbors."""
        self.peer.send(numbered(7))
        self.assertTrue(eventually(lambda: self.has_neighbor("p7"), HANGS))
        old = self.process()
        said = self.run_in_it("sh", "-euc", COPY)
        self.assertIn(f"{PREFIX}/etc/default/lldpa was changed, so it stays", said)
        self.assertEqual(self.options.read_text(), self.given)
        self.assertEqual(self.process(), old)
        since = Peer(self.wires, "peer0")
        self.addCleanup(since.close)
        self.run_in_it("systemctl", "daemon-reload")
        self.run_in_it("systemctl", "try-restart", "lldpa", "lldpa-record")
        self.assertTrue(eventually(lambda: self.runs_anew(old), HANGS))
        self.assertTrue(self.has_neighbor("p7"))
        self.assertNotEqual(ttl_of(since.hears(HANGS) or self.fail("it sends nothing")), 0)

    def test_reload(self) -> None:
        """A reload takes new settings over in the same process."""
        old = self.process()
        (self.settings / "a.conf").write_text('configure system description "of the folder"\n')
        self.addCleanup((self.settings / "a.conf").unlink)
        self.run_in_it("systemctl", "reload", "lldpa")
        self.assertTrue(eventually(lambda: "of the folder" in self.run_in_it(CTL, "show", "chassis")))
        self.assertEqual(self.process(), old)

    def test_name(self) -> None:
        """The System Name has the domain that /etc/hosts gives this host."""
        name = self.run_in_it("uname", "-n").strip()
        (self.host.root / "etc/hosts").write_text(f"127.0.1.1 {name}.example.com {name}\n")
        self.run_in_it("systemctl", "restart", "lldpa")
        line = f"local-chassis.name={name}.example.com\n"
        self.assertTrue(eventually(lambda: line in self.run_in_it(CTL, "show", "chassis")))

    def test_waiting(self) -> None:
        """Who waits for an interface is told in which file it is named."""
        self.addCleanup(self.options.write_text, self.given)
        self.options.write_text(self.given.replace('PORTS="eth0"', 'PORTS="eth7"'))
        self.run_in_it("systemctl", "restart", "lldpa")
        waits = f"waiting for an interface: eth7 (see PORTS in {PREFIX}/etc/default/lldpa)"
        self.assertTrue(eventually(lambda: self.host.show("lldpa", "StatusText") == waits),
                        self.host.show("lldpa", "StatusText"))

    def test_stop(self) -> None:
        """A stop says goodbye. One that cannot end is killed soon."""
        self.run_in_it("systemctl", "stop", "lldpa")
        self.assertIsNotNone(self.peer.hears(HANGS, ttl=0), "no goodbye")
        self.run_in_it("systemctl", "start", "lldpa")
        frozen = subprocess.Popen(
            ["nsenter", "--all", f"--target={self.host.first()}", "sh", "-c",
             f"while kill -STOP {self.process()}; do :; done"], stderr=subprocess.DEVNULL)
        began = time.monotonic()
        self.run_in_it("systemctl", "stop", "lldpa")
        frozen.wait(HANGS)
        self.assertLess(time.monotonic() - began, 60, "systemd's own limit is 90 seconds")


class TestShutdown(Installed):
    def test_poweroff(self) -> None:
        """The end of a host says goodbye."""
        self.run_in_it("systemctl", "poweroff", "--no-block")
        self.assertIsNotNone(self.peer.hears(HANGS, ttl=0), "no goodbye")


class TestRemoval(Installed):
    def test_uninstall(self) -> None:
        """Nothing is removed while systemd runs the service. What stays is named."""
        self.assertIn("_lldpa", self.run_in_it("id", "_lldpa"))
        refused = self.host.run(SCRIPT, "--uninstall", PREFIX)
        self.assertEqual((refused.returncode, refused.stdout), (1, ""))
        self.assertIn("systemctl disable --now lldpa", refused.stderr)
        self.run_in_it(CTL, "show", "chassis")
        self.run_in_it("systemctl", "disable", "--now", "lldpa")
        said = self.run_in_it(SCRIPT, "--uninstall", PREFIX)
        self.assertIn("/opt/lldpa/etc/default/lldpa was changed, so it stays", said)
        self.assertIn("the user _lldpa stays: userdel _lldpa removes it", said)
        left = self.run_in_it("find", PREFIX, "!", "-type", "d").splitlines()
        self.assertEqual(left, [f"{PREFIX}/etc/default/lldpa"])


if __name__ == "__main__":
    signal.signal(signal.SIGINT, signal.default_int_handler)
    unittest.main()
