"""Tests the package as pip installs it, and its programs as modules."""

import os
import re
import shutil
import subprocess
import sys
import tempfile
import unittest
from pathlib import Path
from typing import Tuple

import lldpa
from served import LIVE, PROGRAM, REPOSITORY, is_built

SECTIONS = {"lldpa-audit": 1, "lldpa-capture": 1, "lldpa-ctl": 8, "lldpctl": 1}
if os.access(LIVE, os.X_OK):
    SECTIONS["lldpa-live"] = 8
WHEEL = str(REPOSITORY / "tools" / "release" / "wheel.sh")
PROGRAMS = ("lldpa-audit", "lldpa-capture")
TYPED = """\
from typing import List, Optional

from lldpa import Agent, Ctl, Neighbor


def names(ports: list[str]) -> list[Optional[str]]:
    with Agent.start(ports, receive_only=True) as agent:
        neighbors: list[Neighbor] = agent.neighbors()
        return [one.name for one in neighbors]


def lines() -> list[str]:
    return Ctl().lines("show", "neighbors")
"""
FALSE = "from lldpa import Agent\nnumber: int = Agent.start(['eth0']).neighbors()\n"


class Installed(unittest.TestCase):
    """Tests the package in a fresh environment, installed by pip without a network."""

    folder: Path
    said: str

    @classmethod
    def setUpClass(cls) -> None:
        cls.folder = Path(tempfile.mkdtemp())
        cls.addClassCleanup(shutil.rmtree, cls.folder)
        made = subprocess.run([sys.executable, "-m", "venv", str(cls.folder / "venv")],
                              capture_output=True, text=True, check=False)
        if made.returncode:
            raise unittest.SkipTest(f"python3-venv: {made.stdout.splitlines()[:1]}")
        for name in ("python", "audit"):
            shutil.copytree(REPOSITORY / name, cls.folder / name,
                            ignore=shutil.ignore_patterns("tests", "worked", "__pycache__"))
        status, cls.said = cls.pip("install", "./python")
        if status:
            raise AssertionError(cls.said)

    @classmethod
    def pip(cls, *words: str) -> Tuple[int, str]:
        """Runs pip without a network. Returns its status, and what it says."""
        plain = {key: value for key, value in os.environ.items() if not key.startswith("PIP_")}
        plain["PIP_NO_INDEX"] = "1"  # even if the network cannot be taken away
        able = os.geteuid() == 0 and shutil.which("unshare")
        alone = ["unshare", "-n"] if able else []
        done = subprocess.run([*alone, str(cls.bin("pip")), words[0], "--no-cache-dir", *words[1:]],
                              cwd=cls.folder, env=plain, capture_output=True, text=True,
                              check=False)
        return done.returncode, done.stdout + done.stderr

    @classmethod
    def bin(cls, name: str) -> Path:
        """Returns the path of a program in the environment."""
        return cls.folder / "venv" / "bin" / name

    def run_it(self, *words: str) -> str:
        """Runs a program of the environment, and returns the output."""
        return subprocess.run([str(self.bin(words[0])), *words[1:]], cwd=self.folder,
                              capture_output=True, text=True, check=True).stdout

    def test_its_programs(self) -> None:
        for name in PROGRAMS:
            self.assertIn(f"usage: {name} ", self.run_it(name, "--help"))
        self.assertFalse(self.bin("lldpctl").exists())  # that name is lldpd's

    def test_it_is_imported(self) -> None:
        told = self.run_it("python", "-c", "import lldpa; print(lldpa.__file__, lldpa.__version__)")
        path, version = told.split()
        self.assertTrue(path.startswith(str(self.folder / "venv")))
        self.assertEqual(version, lldpa.__version__)
        self.assertIn(f"lldpa-{version}", self.said)
        self.assertEqual(re.findall(r"^Version: (.*)$", self.run_it("pip", "show", "lldpa"), re.M),
                         [version])

    def test_all_modules_are_there(self) -> None:
        packages = next((self.folder / "venv" / "lib").glob("python3*")) / "site-packages"
        for ours in (REPOSITORY / "python" / "lldpa", REPOSITORY / "audit" / "lldpa_audit"):
            library = packages / ours.name
            self.assertEqual({path.relative_to(library) for path in library.rglob("*.py")},
                             {path.relative_to(ours) for path in ours.rglob("*.py")})
            self.assertTrue((library / "py.typed").exists())

    def test_the_audit_brings_what_it_needs(self) -> None:
        """Checks the wheels of the audit, of the package alone, and of the audit alone."""
        for name in ("python", "audit"):
            shutil.copytree(self.folder / name, self.folder / "alone" / name / name)
        for source, has in (("./audit", True), ("./alone/python/python", False)):
            place = self.folder / "to" / source
            status, said = self.pip("install", "--target", str(place), source)
            self.assertEqual(status, 0, said)
            self.assertEqual((place / "bin" / "lldpa-audit").exists(), has)
            self.assertTrue((place / "lldpa" / "__init__.py").exists())
        status, said = self.pip("install", "./alone/audit/audit")
        self.assertNotEqual(status, 0)
        self.assertIn("lldpa-audit needs the package lldpa, and there is no ", said)

    def test_a_wheel_may_hold_the_program(self) -> None:
        start = "from lldpa import Agent\nAgent.start(['eth0']).close()"
        alone = subprocess.run([str(self.bin("python")), "-c", start], capture_output=True,
                               env={"PATH": "/nonexistent"}, text=True, check=False)
        self.assertIn("not found on the path: 'lldpa'", alone.stderr)
        self.assertIn("contains everything except the program lldpa",
                      self.run_it("pip", "show", "lldpa"))
        name = subprocess.run([WHEEL, str(self.folder)], capture_output=True, text=True, check=True,
                              env={**os.environ, "LLDPA": PROGRAM}).stdout.strip()
        self.assertRegex(name, "^lldpa-.*-py3-none-linux_(x86_64|aarch64).whl$")
        place = str(self.folder / "with")
        self.run_it("python", "-m", "venv", place)
        python = place + "/bin/python"
        for words in (["-m", "pip", "install", "--no-index", str(self.folder / name)],
                      ["-c", start]):
            done = subprocess.run([python, *words], capture_output=True, text=True, check=False,
                                  env={"PATH": "/nonexistent"})
            self.assertEqual(done.returncode, 0, done.stderr)

    @unittest.skipUnless(shutil.which("mypy"), "mypy: it is not installed")
    def test_its_types_are_seen(self) -> None:
        for text, status in ((TYPED, 0), (FALSE, 1)):
            (self.folder / "typed.py").write_text(text)
            done = subprocess.run(
                ["mypy", "--strict", "--python-executable", str(self.bin("python")),
                 "--cache-dir", str(self.folder / "types"), "typed.py"],
                cwd=self.folder, capture_output=True, text=True, check=False)
            self.assertEqual(done.returncode, status, done.stdout + done.stderr)


class Modules(unittest.TestCase):
    """Tests the package in its folder, without installing it."""

    def run_module(self, *words: str) -> str:
        path = os.pathsep.join(str(REPOSITORY / name) for name in ("python", "audit"))
        return subprocess.run([sys.executable, "-m", *words], capture_output=True, text=True,
                              check=True, env={**os.environ, "PYTHONPATH": path}).stdout

    def test_each_program_prints_help(self) -> None:
        for name in PROGRAMS:
            module = name.rpartition("-")[2]
            told = self.run_module(
                "lldpa_audit" if module == "audit" else f"lldpa.commands.{module}", "--help")
            self.assertTrue(told.startswith(f"usage: {name} "), told)

    def test_the_package_tells_of_itself(self) -> None:
        told = self.run_module("lldpa")
        self.assertTrue(told.startswith(f"lldpa {lldpa.__version__}, "))
        for name in (REPOSITORY / "python" / "lldpa" / "commands").glob("[a-z]*.py"):
            if not name.stem.endswith("words"):
                self.assertIn(f"lldpa.commands.{name.stem} ", told)

    def test_its_version_is_the_program_s(self) -> None:
        told = subprocess.run([PROGRAM, "--version"], capture_output=True, text=True, check=True)
        self.assertEqual(told.stdout, f"lldpa {lldpa.__version__}\n")


@is_built
class Programs(unittest.TestCase):
    """Tests the version and the help of each program."""

    def said(self, name: str, word: str) -> str:
        """Returns what a program prints for this option."""
        program = LIVE if name == "lldpa-live" else str(REPOSITORY / "bin" / name)
        return subprocess.run([program, word], capture_output=True, text=True, check=True).stdout

    def test_version_is_that_of_the_changes(self) -> None:
        changes = (REPOSITORY / "CHANGELOG.md").read_text()
        found = re.search(r"^## ([0-9.]+)$", changes, re.M)
        assert found is not None
        self.assertEqual(lldpa.__version__, found[1])
        of_audit = re.search(r"^## ([0-9.]+)$", (REPOSITORY / "audit" / "CHANGELOG.md").read_text(),
                             re.M)
        assert of_audit is not None
        for name in SECTIONS:
            version = (of_audit if name == "lldpa-audit" else found)[1]
            for word in ("--version", "-v" if name == "lldpctl" else "-V"):
                self.assertEqual(self.said(name, word), f"{name} {version}\n")

    def test_help_has_an_example_and_the_page(self) -> None:
        for name, section in SECTIONS.items():
            text = self.said(name, "--help")
            self.assertRegex(text, rf"(?m)^examples?:\s+{name} ")
            self.assertIn(f"{name}({section})", text)
            folder = "audit" if name == "lldpa-audit" else "man"
            self.assertTrue((REPOSITORY / folder / f"{name}.{section}").is_file())
