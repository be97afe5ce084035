"""Tests that a reader can run each script by its name, as the pages say, or learns what to do."""

import os
import shutil
import subprocess
import tempfile
import unittest
from pathlib import Path
from typing import Iterator

from served import REPOSITORY

FOLDERS = ("audit", "bin", "examples", "tools")
BUILT = ("lldpa-live", "lldpa-ctl", "lldpctl", "lldpcli")


def scripts() -> Iterator[Path]:
    """Returns the files whose first line names an interpreter."""
    for folder in FOLDERS:
        for path in (REPOSITORY / folder).rglob("*"):
            if path.is_file() and path.read_bytes()[:2] == b"#!":
                yield path


class Scripts(unittest.TestCase):
    def test_each_can_be_run(self) -> None:
        found = list(scripts())
        self.assertGreater(len(found), 40)
        self.assertEqual([str(path) for path in found if not os.access(path, os.X_OK)], [])


class Built(unittest.TestCase):
    """The programs of bin that tools/release/live.sh builds, in a clone in which it has not run."""

    def setUp(self) -> None:
        room = tempfile.TemporaryDirectory()
        self.addCleanup(room.cleanup)
        self.top = Path(room.name).resolve()
        for name in ("bin", "tools/release"):
            shutil.copytree(REPOSITORY / name, self.top / name)

    def said(self, program: Path, *words: str) -> "tuple[int, str, str]":
        """Returns the status of a program, what it prints, and its errors."""
        ran = subprocess.run([program, *words], text=True, capture_output=True, check=False)
        return ran.returncode, ran.stdout, ran.stderr

    def test_who_lacks_a_program_learns_how_to_build_it(self) -> None:
        for folder, how in (("docs", "run tools/release/live.sh, which needs cargo and liblldpa"),
                            ("assembly", f"run make in {self.top}, which needs gcc and cargo")):
            (self.top / folder).mkdir()
            for name in BUILT:
                self.assertEqual(self.said(self.top / "bin" / name, "--help"),
                                 (1, "", f"{name} is not built: {how}\n"))

    def test_what_is_built_runs_also_by_a_link(self) -> None:
        out = self.top / "rust" / "live" / "out"
        out.mkdir(parents=True)
        for name in BUILT:
            (out / name).write_text('#!/bin/sh\nprintf "%s|" "${0##*/}" "$@"\nexit 7\n')
            (out / name).chmod(0o755)
            link = self.top / f"my-{name}"
            link.symlink_to(self.top / "bin" / name)
            for program in (self.top / "bin" / name, link):
                self.assertEqual(self.said(program, "a b", "", "*"), (7, f"{name}|a b||*|", ""))


class Wrong(unittest.TestCase):
    """What a script cannot do it says at once: the argument, and what is missing or allowed."""

    def test_its_argument_is_named(self) -> None:
        places = {"LLDPA": "/none/lldpa", "LLDPA_LIB_DIR": "/none", "DESTDIR": "/none", "PATH": "/usr/bin:/bin"}
        for words, status, said in (
                ("tools/gate/check-dist.sh --arm", 2, "there is no option --arm, but --arm64 and --packages"),
                ("tools/gate/install.sh --instal", 2, "there is no option --instal, but --install, --list and"),
                ("tools/library/library.sh --arch", 1, "--arch none: it is amd64 or arm64"),
                ("tools/release/assembly.sh amd64", 1, "no crate: it is lldpa or lldpa_c"),
                ("tools/release/assembly.sh amd64 lldp", 1, "lldp: it is lldpa or lldpa_c"),
                ("tools/release/build.sh --arch x86", 1, "--arch x86: it is amd64 or arm64"),
                ("tools/release/dist.sh --check", 1, "--check needs an archive, and it is none"),
                ("tools/release/dist.sh --check /none", 1, "--check needs an archive, and /none is none"),
                ("tools/release/dist.sh /none", 1, "there is no folder /none"),
                ("tools/release/install.sh --remove", 2, "there is no option --remove, but --uninstall and"),
                ("tools/release/install.sh here", 2, "the prefix here does not begin with /"),
                ("tools/release/install.sh /none", 1, "there is no /none/lldpa: make builds it"),
                ("tools/release/install.sh --library /none", 1, "there is no /none/liblldpa.a: make builds it"),
                ("tools/release/live.sh --arch", 1, "--arch none: it is amd64 or arm64"),
                ("tools/release/wheel.sh /none", 1, "there is no folder /none"),
                ("tools/release/wheel.sh /", 1, "there is no program /none/lldpa: make builds it"),
                ("tools/write/try-transcripts.sh none", 1, "there is no transcript none")):
            script, *rest = words.split()
            ran = subprocess.run([REPOSITORY / script, *rest], env={**os.environ, **places}, text=True,
                                 stdin=subprocess.DEVNULL, capture_output=True, timeout=60, check=False)
            with self.subTest(words):
                self.assertEqual((ran.returncode, ran.stdout), (status, ""))
                self.assertTrue(ran.stderr.startswith(f"{script}: {said}"), ran.stderr)

    def test_a_program_that_is_not_built_is_named(self) -> None:
        for script in ("tools/bench/bench.py", "tools/bench/bench_counts.py", "tools/model/fuzz.py"):
            ran = subprocess.run([REPOSITORY / script, "--program", "/none"], text=True,
                                 capture_output=True, check=False)
            self.assertEqual(ran.returncode, 2)
            self.assertTrue(ran.stderr.endswith("--program: there is no program /none: make builds it\n"), ran.stderr)


if __name__ == "__main__":
    unittest.main()
