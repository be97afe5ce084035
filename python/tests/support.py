"""For tests: runs lldpa-capture, and makes files and services."""

import os
import socket
import subprocess
import sys
import tempfile
import threading
import time
import unittest
from contextlib import suppress
from pathlib import Path
from typing import Optional, Tuple

from served import REPOSITORY

CAPTURE = str(REPOSITORY / "bin" / "lldpa-capture")


class FilesCase(unittest.TestCase):
    """A test with its own folder for files."""

    def setUp(self) -> None:
        folder = tempfile.TemporaryDirectory()
        self.addCleanup(folder.cleanup)
        self.folder = Path(folder.name)

    def file(self, octets: bytes, name: str = "made") -> str:
        """Writes a file with these octets, and returns its path."""
        path = self.folder / name
        path.write_bytes(octets)
        return str(path)

    def ran(self, *words: str, octets: Optional[bytes] = None) -> Tuple[str, str, int]:
        """Runs lldpa-capture in the folder. Returns the output, the messages and the status."""
        done = run_capture(list(words), octets, self.folder)
        return done.stdout, done.stderr, done.returncode


class AnsweringCase(FilesCase):
    """A test with services that send given octets."""

    def answers(self, *octets: bytes, pause: float = 0) -> str:
        """Returns the path of a socket that sends these octets to its first client."""
        path = str(self.folder / f"control-{len(os.listdir(self.folder))}")
        listening = socket.socket(socket.AF_UNIX, socket.SOCK_STREAM)
        self.addCleanup(listening.close)
        listening.bind(path)
        os.chmod(path, 0o666)
        listening.listen()

        def serve() -> None:
            connection, _ = listening.accept()
            with connection, suppress(OSError):
                for some in octets:
                    connection.sendall(some)
                    time.sleep(pause)
        threading.Thread(target=serve, daemon=True).start()
        return path


def run_capture(words: list[str], octets: Optional[bytes] = None,
                folder: Optional[Path] = None) -> subprocess.CompletedProcess[str]:
    """Runs lldpa-capture with these words, and these octets as standard input."""
    done = subprocess.run([sys.executable, CAPTURE, *words], input=octets, capture_output=True,
                          cwd=folder, check=False)
    return subprocess.CompletedProcess(done.args, done.returncode, done.stdout.decode(),
                                       done.stderr.decode())
