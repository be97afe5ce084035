"""Tests that each program says in one line if Python is too old for it."""

import ast
import pathlib
import subprocess
import sys
import unittest

BIN = pathlib.Path(__file__).resolve().parents[2] / "bin"
PROGRAMS = sorted(path for path in BIN.iterdir()
                  if "python3" in path.read_text().partition("\n")[0])
OLD = """\
import runpy, sys
sys.version_info, sys.version = (3, 8, 20, "final", 0), "3.8.20 (default)"
sys.argv = [{path!r}, "--help"]
runpy.run_path({path!r}, run_name="__main__")
"""


class TestOldPython(unittest.TestCase):
    def test_programs_are_there(self) -> None:
        names = [path.name for path in PROGRAMS]
        self.assertEqual(names, ["lldpa-audit", "lldpa-capture", "lldpa-model"])

    def test_one_line_says_which_python_is_needed(self) -> None:
        for path in PROGRAMS:
            with self.subTest(path.name):
                ran = subprocess.run([sys.executable, "-c", OLD.format(path=str(path))], text=True,
                                     stdout=subprocess.PIPE, stderr=subprocess.PIPE, check=False)
                told = f"{path.resolve().name}: Python 3.9 or later is needed, and this is 3.8.20\n"
                self.assertEqual((ran.returncode, ran.stdout, ran.stderr), (1, "", told))

    def test_old_pythons_can_read_the_programs(self) -> None:
        for path in PROGRAMS:
            with self.subTest(path.name):
                self.assertTrue(ast.parse(path.read_text(), feature_version=(3, 4)).body)

    def test_the_package_cannot_be_imported(self) -> None:
        code = "import sys; sys.version_info = (3, 8, 20); import lldpa"
        ran = subprocess.run([sys.executable, "-c", code], cwd=BIN.parent / "python", text=True,
                             stdout=subprocess.PIPE, stderr=subprocess.PIPE, check=False)
        told = "ImportError: lldpa: Python 3.9 or later is needed"
        self.assertEqual(ran.stderr.splitlines()[-1], told)


if __name__ == "__main__":
    unittest.main()
