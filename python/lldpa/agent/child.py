"""Runs lldpa as a child process, with a socket as its standard input and output."""

import errno
import os
import shutil
import signal
import socket
import subprocess
import sys
from contextlib import suppress
from typing import List, Mapping, Optional, Sequence, Union

from .framing import Ended as Ended

Option = Union[bool, int, str, None]

PROGRAM = "lldpa"
PATIENCE = 10.0
MOST_SAID = 64 * 1024  # octets to read from standard error


def words_of(ports: Sequence[str], program: str, options: Mapping[str, Option]) -> List[str]:
    """Returns an agent's command line. The option `max_neighbors=4` becomes `--max-neighbors=4`.

    Raises TypeError if `ports` is a single name instead of a list of names.
    """
    if isinstance(ports, (str, bytes)):
        raise TypeError(f"ports must be a list of names such as ['eth0'], not {ports!r}")
    words = [path_of(program)]
    for name, value in options.items():
        option = "--" + name.replace("_", "-")
        if value is True:
            words.append(option)
        elif value is not None and value is not False:
            words.append(f"{option}={value}")
    return [*words, "--", *ports]


def path_of(program: str) -> str:
    """Returns `program`, or a path if it is `lldpa` and is found only in Python's folder.

    Raises FileNotFoundError if `lldpa` is neither there nor on the search path.
    """
    if program != PROGRAM or shutil.which(program):
        return program
    beside = shutil.which(program, path=os.path.dirname(sys.executable))
    if beside is None:
        raise FileNotFoundError(errno.ENOENT, "not found on the path", program)
    return beside


class Child:
    """A child process. Ctrl-C does not reach the process, which ends when its input ends."""

    def __init__(self, words: List[str]) -> None:
        """Starts the process. Raises OSError if the program does not exist."""
        self.socket, theirs = socket.socketpair()
        try:
            with theirs:
                self._process = subprocess.Popen(
                    words, stdin=theirs.fileno(), stdout=theirs.fileno(), stderr=subprocess.PIPE,
                    start_new_session=True)
        except OSError:
            self.socket.close()
            raise
        self._end: Optional[Ended] = None

    @property
    def pid(self) -> int:
        """Returns the process ID."""
        return self._process.pid

    def end(self, patience: float = PATIENCE) -> Ended:
        """Waits up to `patience` seconds for the process, then kills it. Returns how it ended."""
        if self._end is None:
            try:
                status = self._process.wait(patience)
            except subprocess.TimeoutExpired:
                self._process.kill()
                status = self._process.wait()
            self._end = end_of(status, self._errors())
        return self._end

    def _errors(self) -> str:
        """Returns up to 64 kB of what the process wrote to standard error."""
        assert self._process.stderr is not None
        said = b""
        with self._process.stderr as errors, suppress(BlockingIOError):
            os.set_blocking(errors.fileno(), False)
            said = os.read(errors.fileno(), MOST_SAID)
        return said.decode("utf-8", "replace").strip()


def end_of(status: int, said: str) -> Ended:
    """Returns how a process ended, from its status and its standard error."""
    if status < 0:
        names = {one.value: one.name for one in signal.Signals}
        return Ended(status, f"the agent was killed by {names.get(-status, f'signal {-status}')}")
    return Ended(status, said or f"the agent ended with status {status}")
