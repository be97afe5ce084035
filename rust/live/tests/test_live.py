"""Tests the command line of lldpa-live, and what lldpa-live needs to start."""

import os
import shutil
import subprocess
import tempfile
import unittest

from running_live import LIVE, OnLinks, is_built, run_live


@is_built
class TestWords(unittest.TestCase):
    def test_words_that_are_refused(self) -> None:
        for words, text in (
                ([], "PORT"),
                (["--once", "-1", "eth0"], "--once"),
                (["--program", "lldpa", "eth0"], "--program"),
                (["--connect", "4711", "eth0"], "--connect"),
                (["--nonsense", "eth0"], "--nonsense"),
                (["--con", "4711", "eth0"], "--con"),
                (["eth0", "--", "eth1"], "only long options of lldpa may follow --"),
                (["eth0", "--", "--hostname", "a", "b"], "b: only long options of lldpa"),
                (["eth0", "--", "--hostname", "a", "--hostname=b"], "--hostname is given twice"),
                (["eth0", "--", "--listen", "1"], "--listen cannot be used after --"),
                (["eth0", "--", "--mac", "02:00"], "--mac"),
                (["eth0", "--", "--role", "king"], "--role"),
                (["eth0", "--", "--max-neighbors", "129"], "--max-neighbors"),
                (["eth0", "--", "--max-neighbors", "0"], "--max-neighbors"),
                (["eth0", "--", "--tx-intervall", "7"], "--tx-intervall"),
                (["eth0", "--", "--management"], "--management")):
            with self.subTest(words):
                ended = run_live(*words)
                self.assertEqual(ended.returncode, 2)
                self.assertIn(text, ended.stderr)
                self.assertEqual(ended.stdout, "")

    def test_help(self) -> None:
        ended = run_live("--help")
        self.assertEqual(ended.returncode, 0)
        for option in ("--only-existing", "--forget-on-down", "--keep-state", "--control-group"):
            self.assertIn(option, ended.stdout)

    def test_only_root_becomes_another(self) -> None:
        nobody = {"user": 65534, "group": 65534} if os.geteuid() == 0 else {}
        with tempfile.TemporaryDirectory() as folder:
            os.chmod(folder, 0o755)
            ended = subprocess.run([shutil.copy(LIVE, folder), "--user", "daemon", "eth0"],
                                   stdin=subprocess.DEVNULL, capture_output=True, text=True,
                                   check=False, **nobody)
        self.assertEqual(ended.returncode, 2, ended.stderr)
        self.assertIn("--user", ended.stderr)


class TestStart(OnLinks):
    def test_what_keeps_it_from_starting(self) -> None:
        for status, text, *words in (
                (1, "eth5: there is no such interface", "--only-existing", "eth0", "eth5"),
                (1, "no Ethernet interface is selected", "--only-existing", "lan*", "!lan3"),
                (1, "no Ethernet interface is selected", "!eth*"),
                (1, "no Ethernet interface is selected", "--once", "1", "lan*"),
                # after status 2, systemd does not start lldpa-live again
                (2, "error: user nemo is not in /etc/passwd", "--user", "nemo", "eth0")):
            self.refuses(text, *words, status=status)

    def test_without_any_right_it_says_what_it_needs(self) -> None:
        self.folder.chmod(0o777)
        self.refuses("CAP_NET_RAW", "eth0",
                     before=["setpriv", "--reuid=1", "--regid=1", "--clear-groups"])

    def test_options_of_the_agent(self) -> None:
        live = self.live("eth0", "--", "--mac=02:00:5e:00:53:01", "--hostname", "a b",
                         "--receive-only", "--role", "router", "--max-neighbors=2",
                         "--reinit-delay", "9", "--management", "192.0.2.9")
        shown = live.ask("show chassis") + live.ask("show configuration")
        for line in ("local-chassis.mac=02:00:5e:00:53:01", "local-chassis.name=a b",
                     "local-chassis.caps=Router:on", "configuration.eth0.status=rx-only",
                     "configuration.max-neighbors=2", "configuration.reinit-delay=9",
                     "local-chassis.mgmt=192.0.2.9,1,0,"):
            self.assertIn(line, shown)
