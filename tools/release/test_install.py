"""Tests tools/release/install.sh without a built program: where the configuration is, and what stays."""

import os
import subprocess
import tempfile
import unittest
from pathlib import Path
from unittest import mock

from served import REPOSITORY

SCRIPT = REPOSITORY / "tools" / "release" / "install.sh"


class Installing(unittest.TestCase):
    def setUp(self) -> None:
        folder = tempfile.TemporaryDirectory()
        self.addCleanup(folder.cleanup)
        self.folder = Path(folder.name)
        self.tree = self.folder / "tree"

    def ran(self, *words: str) -> str:
        """Returns what the script says when it works below `tree`."""
        programs = {"LLDPA": str(self.folder / "lldpa"), "LLDPA_LIVE": str(self.folder / "lldpa-live")}
        for file in programs.values():
            Path(file).touch()
        return subprocess.run([SCRIPT, *words], env={**os.environ, **programs, "DESTDIR": str(self.tree)},
                              stdout=subprocess.PIPE, stderr=subprocess.STDOUT, text=True, check=True).stdout

    def test_the_configuration_is_below_the_prefix(self) -> None:
        self.ran("/opt/lldpa")
        self.assertEqual([path.name for path in self.tree.iterdir()], ["opt"])
        self.assertIn("\nPORTS=", (self.tree / "opt/lldpa/etc/default/lldpa").read_text())

    def test_without_python_it_says_what_needs_it(self) -> None:
        tools = self.folder / "tools"
        tools.mkdir()
        for file in (*Path("/usr/bin").iterdir(), *Path("/bin").iterdir()):
            if not file.name.startswith("python3") and not (tools / file.name).is_symlink():
                (tools / file.name).symlink_to(file)
        with mock.patch.dict(os.environ, PATH=str(tools)):
            told = self.ran()
        where = self.tree / "usr/local"
        lacks = "lldpa-capture and lldpa-audit need Python 3.9 or later, and there is no python3"
        self.assertEqual(told.splitlines(), [lacks, f"installed under {where}"])
        self.assertTrue((where / "bin/lldpa-live").exists())

    def test_what_is_the_users_stays_and_is_named(self) -> None:
        self.ran()
        kept = {"etc/default/lldpa": "was changed, so it stays",
                "etc/lldpa.d/mine.conf": "has files of yours, so it stays",
                "var/lib/lldpa/log/1.trace": "has records, so it stays"}
        for name in kept:
            (self.tree / name).parent.mkdir(parents=True, exist_ok=True)
            (self.tree / name).write_text("# mine\n")
        self.ran()  # an upgrade
        told = self.ran("--uninstall")
        left = {str(path.relative_to(self.tree)) for path in self.tree.rglob("*") if path.is_file()}
        self.assertEqual(left, set(kept))
        for name, text in kept.items():
            self.assertEqual((self.tree / name).read_text(), "# mine\n")
            self.assertIn(text, told)


if __name__ == "__main__":
    unittest.main()
