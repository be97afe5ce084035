"""Tests which words bash offers in command lines of lldpa-ctl, lldpctl and lldpcli."""

import os
import subprocess
import tempfile
import unittest
from pathlib import Path
from typing import Set

from served import BIN, LIVE, REPOSITORY

FILE = REPOSITORY / "share/bash-completion/lldpa"
LIBRARY = Path("/usr/share/bash-completion/bash_completion")
SHOWS = {"neighbors", "interfaces", "chassis", "statistics", "configuration"}
# prints what is offered for the last of these words
COMPLETE = f"""
. {LIBRARY}
. "{FILE}"
COMP_WORDS=("$@") COMP_CWORD=$(($# - 1)) COMP_LINE="$*" COMP_POINT=${{#COMP_LINE}}
call=$(complete -p "$1" | sed 's/.*-F \\([^ ]*\\).*/\\1/')
"$call" "$1" "${{@: -1}}" "${{@: -2:1}}" 2> /dev/null
printf '%s\\n' "${{COMPREPLY[@]}}"
"""


@unittest.skipUnless(LIBRARY.exists(), "bash-completion: completions for bash")
class InBash(unittest.TestCase):
    def setUp(self) -> None:
        folder = tempfile.TemporaryDirectory()
        self.addCleanup(folder.cleanup)
        self.lldpcli = Path(folder.name, "lldpcli")
        self.path = os.pathsep.join([folder.name, str(BIN), os.environ["PATH"]])

    def ran(self, script: str, *words: str) -> str:
        told = subprocess.run(["bash", "-c", script, "bash", *words], env={**os.environ, "PATH": self.path},
                              check=False, stdout=subprocess.PIPE, text=True)
        return told.stdout

    def offered(self, *words: str) -> Set[str]:
        return set(self.ran(COMPLETE, *words).split())

    def test_what_may_follow_show(self) -> None:
        for program in ("lldpa-ctl", "lldpctl"):
            self.assertEqual(self.offered(program, "show", ""), SHOWS)
        self.assertEqual(self.offered("lldpa-ctl", "--json", "show", "n"), {"neighbors"})

    def test_files_may_follow_what_reads_and_writes_files(self) -> None:
        for command in ("check", "reload", "record"):
            self.assertEqual(self.offered("lldpa-ctl", command, ""), set())  # so bash offers files

    def test_interfaces_may_follow_other_commands(self) -> None:
        self.assertEqual(self.offered("lldpa-ctl", "details", ""), set(os.listdir("/sys/class/net")))

    def test_lldpcli_if_it_is_this_one(self) -> None:
        self.lldpcli.symlink_to(LIVE)
        self.assertEqual(self.offered("lldpcli", ""), {"show", "watch", "configure", "update"})
        self.assertEqual(self.offered("lldpcli", "show", ""), SHOWS)
        self.lldpcli.unlink()
        self.lldpcli.write_text("#!/bin/sh\n")
        self.lldpcli.chmod(0o755)
        self.assertEqual(self.ran(f'. "{FILE}"; complete -p lldpcli 2> /dev/null'), "")
