"""Tests that `lldpa-ctl metrics --output` writes a whole file, even if nobody answers."""

import os
import resource
import socket
import stat
import threading
from pathlib import Path
from typing import Any, List

from served import LIVE_LINES, Program, numbered

DOWN = """\
# HELP lldpa_up 1 if lldpa-live answers and its agent runs, else 0.
# TYPE lldpa_up gauge
lldpa_up 0
"""


def of_second(line: str) -> str:
    """Returns a line of metrics as the file lldpa2.prom has it."""
    if line.startswith("#"):
        return line
    if "{" in line:
        return line.replace("{", '{service="lldpa2",', 1)
    return line.replace(" ", '{service="lldpa2"} ', 1)


class Publishing(Program):
    def setUp(self) -> None:
        super().setUp()
        self.folder = Path(self.served.folder, "collected")
        self.folder.mkdir()
        self.file = self.folder / "lldpa.prom"

    def ctl(self, *words: str, **options: Any) -> str:
        return self.run_ctl("metrics", *words, **options)

    def names(self) -> List[str]:
        return sorted(os.listdir(self.folder))

    def test_the_file_has_what_is_printed(self) -> None:
        self.served.frame("eth0", numbered(1))
        printed = self.ctl()
        self.assertIn("\nlldpa_up 1\n", printed)
        for _ in range(2):
            self.assertEqual(self.ctl("--output", str(self.file), umask=0o077), "")
            self.assertEqual((self.names(), self.file.read_text()), (["lldpa.prom"], printed))
            self.assertEqual(stat.S_IMODE(self.file.stat().st_mode), 0o644)
        self.assertEqual(self.ctl("--output", "lldpa.prom", cwd=self.folder), "")
        self.assertEqual((self.names(), self.file.read_text()), (["lldpa.prom"], printed))

    def test_a_file_of_another_name_names_its_service(self) -> None:
        self.served.frame("eth0", numbered(1))
        printed, other = self.ctl(), self.folder / "lldpa2.prom"
        self.ctl("--output", str(other))
        self.assertEqual(other.read_text(), "".join(map(of_second, printed.splitlines(True))))
        self.served.path += "-none"
        said = (f"nobody answers at {self.served.path}: is lldpa-live running? "
                "(sudo systemctl start lldpa starts the service)")
        self.ctl("--output", str(other), said=said, status=1)
        self.assertEqual(other.read_text().splitlines()[-1], 'lldpa_up{service="lldpa2"} 0')

    def test_where_nobody_answers_it_says_so_and_nothing_else(self) -> None:
        self.ctl("--output", str(self.file))
        self.served.path += "-none"
        said = (f"nobody answers at {self.served.path}: is lldpa-live running? "
                "(sudo systemctl start lldpa starts the service)")
        self.ctl("--output", str(self.file), said=said, status=1)
        self.assertEqual((self.names(), self.file.read_text()), (["lldpa.prom"], DOWN))
        self.assertEqual(self.ctl(said=said, status=1), DOWN)
        with socket.socket(socket.AF_UNIX, socket.SOCK_STREAM) as left_behind:
            left_behind.bind(self.served.path)
        self.assertEqual(self.ctl(said=said, status=1), DOWN)

    def test_an_agent_that_waits_for_an_interface_is_not_asked(self) -> None:
        self.served.live_lines = [*LIVE_LINES, b"live.agent=waiting"]
        printed = self.ctl(said="the agent is waiting", status=1)
        self.assertEqual(self.served.asked, [b"live"])
        self.assertIn("\nlldpa_up 0\n", printed)
        self.assertIn('\nlldpa_agent_state{state="waiting"} 1\n', printed)
        self.assertIn('\nlldpa_link_up{port="eth0"} 1\n', printed)
        self.assertNotIn("lldpa_neighbors", printed)

    def test_an_agent_that_waits_after_the_first_question_is_told_with_the_rest(self) -> None:
        self.served.waits = True
        printed = self.ctl(said="the agent is waiting", status=1)
        self.assertIn("\nlldpa_up 0\n", printed)
        self.assertIn('\nlldpa_agent_state{state="waiting"} 1\n', printed)
        self.assertIn('\nlldpa_link_up{port="eth0"} 1\n', printed)

    def test_a_file_that_cannot_be_written_stays_as_it_was(self) -> None:
        missing = self.folder / "none" / "lldpa.prom"
        self.ctl("--output", str(missing), said=f"{missing}: No such file or directory", status=1)
        self.file.write_text("before\n")
        is_full = lambda: resource.setrlimit(resource.RLIMIT_FSIZE, (100, 100))
        self.ctl("--output", str(self.file), said=f"{self.file}: File too large", status=1,
                 preexec_fn=is_full)
        self.assertEqual((self.names(), self.file.read_text()), (["lldpa.prom"], "before\n"))

    def test_readers_see_a_whole_file(self) -> None:
        self.ctl("--output", str(self.file))
        whole, seen, is_over = self.file.read_text(), set(), threading.Event()

        def read() -> None:
            while not is_over.is_set():
                seen.add(self.file.read_text())

        thread = threading.Thread(target=read)
        thread.start()
        for _ in range(5):
            self.ctl("--output", str(self.file))
        is_over.set()
        thread.join()
        self.assertEqual(seen, {whole})
