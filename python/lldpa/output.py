"""Sets up the standard streams, and reports output errors, such as a full disk."""

import io
import os
import select
import sys
from contextlib import suppress
from typing import Any, Callable

from .faults import LldpaFault

INPUT, OUTPUT, ERRORS = 0, 1, 2


class OutputFault(LldpaFault):
    """Standard output failed. The message says why; it is empty if the reader closed the pipe."""

class StandardOutput(io.FileIO):
    """Standard output. Raises OutputFault, so that its errors differ from those of other files."""

    def __init__(self, fault: str) -> None:
        super().__init__(OUTPUT, "w", closefd=False)
        self._fault = fault
        self._is_over = False

    def write(self, octets: Any) -> int:
        """Writes octets. Raises OutputFault at the first error, and drops all octets after that."""
        if self._is_over:
            return len(octets)
        try:
            if not self._fault:
                return super().write(octets)
        except BrokenPipeError:
            pass
        except OSError as fault:
            self._fault = fault.strerror or str(fault)
        self._is_over = True
        raise OutputFault(self._fault)


class StandardErrors(io.FileIO):
    """Standard error. Drops what it cannot write, including the messages of argparse."""

    def __init__(self) -> None:
        super().__init__(ERRORS, "w", closefd=False)

    def write(self, octets: Any) -> int:
        """Writes octets, and ignores errors."""
        with suppress(OSError):
            super().write(octets)
        return len(octets)


def run(name: str, body: Callable[[], int], failed: int, errors: str = "strict") -> int:
    """Runs a program's body and returns its status. If its output fails, returns `failed`, and
    reports the error unless the reader closed the pipe.

    `errors` is Python's error handler for characters that the terminal cannot show.
    """
    fault = "it is closed" if OUTPUT in missing_streams() else ""
    encoding = getattr(sys.stdout, "encoding", None) or "utf-8"
    sys.stdout = io.TextIOWrapper(io.BufferedWriter(StandardOutput(fault)), encoding, errors,
                                  line_buffering=os.isatty(OUTPUT))
    sys.stderr = io.TextIOWrapper(io.BufferedWriter(StandardErrors()), encoding,
                                  "backslashreplace", line_buffering=True)
    try:
        status = status_of(body)
        sys.stdout.flush()
        return status
    except OutputFault as why:
        if str(why):
            complain(name, f"standard output: {why}")
        return failed


def status_of(body: Callable[[], int]) -> int:
    """Returns the status of a body, even if argparse ends it, for example after printing help."""
    try:
        return body()
    except SystemExit as end:
        return end.code if isinstance(end.code, int) else 0


def missing_streams() -> set[int]:
    """Returns which standard streams are closed. Opens them, so that no file gets their numbers."""
    missing = set()
    for number in (INPUT, OUTPUT, ERRORS):
        try:
            os.fstat(number)
        except OSError:
            os.open(os.devnull, os.O_RDWR)
            missing.add(number)
    return missing


def complain(name: str, text: str) -> None:
    """Writes a line to standard error, without control characters and cut to what can be written at
    once. If nobody reads standard error, drops the line."""
    printable = "".join(letter if letter.isprintable() else "?" for letter in text)
    line = f"{name}: {printable}" if name else printable
    octets = line.encode(errors="backslashreplace")[:select.PIPE_BUF - 1]
    with suppress(OSError):
        if select.select([], [ERRORS], [], 0)[1]:
            os.write(ERRORS, octets + b"\n")
