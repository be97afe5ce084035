"""For tests: asks lldpa-live at its control socket, without lldpa-ctl, which other tests judge."""

from __future__ import annotations

import socket
import struct
from contextlib import suppress
from typing import List

from lldpa import Refused
from lldpa.agent.framing import checked

SECONDS_TO_ANSWER = 30.0
REFUSAL = "error: "


class Gone(ConnectionError):
    """lldpa-live has ended the connection, or its answer is malformed."""


class Client:
    """A connection to lldpa-live, for one question after another."""

    def __init__(self, path: str, seconds: float = SECONDS_TO_ANSWER) -> None:
        self.seconds = seconds
        self.connection = socket.socket(socket.AF_UNIX)
        patience = struct.pack("ll", int(seconds), int(seconds % 1 * 1_000_000))
        self.connection.setsockopt(socket.SOL_SOCKET, socket.SO_SNDTIMEO, patience)
        try:
            self.connection.connect(path)
        except OSError:
            self.connection.close()
            raise
        self.received = self.connection.makefile("rb")

    def ask(self, line: str) -> List[str]:
        """Sends a line, and returns the lines of its answer. Raises Refused if it is refused."""
        self.connection.settimeout(self.seconds)
        with suppress(BrokenPipeError, ConnectionResetError):  # an answer may say why
            self.connection.sendall(checked(line) + b"\n")
        return self.answer()

    def answer(self) -> List[str]:
        """Returns the lines of the next answer. Raises Refused if it is a refusal."""
        head = self.line()
        if not (head.startswith("=") and head[1:].isdecimal()):
            raise Gone(f"not an answer of lldpa-live: {head!r}")
        lines = [self.line() for _ in range(int(head[1:]))]
        if len(lines) == 1 and lines[0].startswith(REFUSAL):
            raise Refused(lines[0][len(REFUSAL):])
        return lines

    def line(self) -> str:
        """Returns the next line of an answer."""
        line = b""
        try:
            line = self.received.readline()
        except ConnectionResetError:
            pass
        except socket.timeout:
            raise TimeoutError("no answer in time") from None
        if not line.endswith(b"\n"):
            raise Gone("lldpa-live has ended the connection")
        return line[:-1].decode("ascii")

    def close(self) -> None:
        self.received.close()
        self.connection.close()

    def __enter__(self) -> Client:
        return self

    def __exit__(self, *_: object) -> None:
        self.close()


def since_of(lines: List[str]) -> "dict[tuple[str, str], str]":
    """Returns from the lines of `live` when each neighbor appeared, by port and identifier."""
    since = {}
    for line in lines:
        key, _, value = line.partition("=")
        words = key.split(".")
        if len(words) == 4 and words[2] == "since":
            when, _, who = value.partition(" ")
            since[words[1], who] = when
    return since


def numbers_of(lines: List[str]) -> "dict[str, int]":
    """Returns the number of each chassis, from the lines of `live`."""
    numbers = {}
    for line in lines:
        key, _, value = line.partition("=")
        if key.startswith("live.chassis."):
            numbers[value] = int(key.rpartition(".")[2])
    return numbers
