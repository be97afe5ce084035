"""For tests: replays logs, to compare the tables at some moments, and the sent frames."""

import re
import shlex
import subprocess
import time
from pathlib import Path
from typing import Optional

from running_live import Live
from served import PROGRAM

CLOCK = re.compile("^# [0-9]{4}-", re.M)  # the first one ends the head of a file


class Moments:
    """Asks an lldpa-live for its tables at some moments. Marks each moment in the log by an
    `update` with a different number of spaces, since the log does not contain show commands."""

    def __init__(self, live: Live) -> None:
        self.live = live
        self.answers: dict[str, list[str]] = {}
        self.count = 0
        self.slowest = 0.0  # seconds until an answer

    def ask(self, line: str) -> "list[str]":
        began = time.monotonic()
        lines = self.live.ask(line)
        self.slowest = max(self.slowest, time.monotonic() - began)
        return lines

    def take(self) -> None:
        """Marks a moment, and notes the tables. If these change meanwhile, marks another."""
        self.count += 1
        line = f"update{' ' * self.count}"
        before = self.ask("show neighbors")
        self.ask(line)
        if self.ask("show neighbors") == before:
            self.answers[line] = before
        else:
            self.take()


def answers(log: Path, text: str) -> list[str]:
    """Runs an agent with the options in a log's first line. Returns the output for a text."""
    first = log.read_text().partition("\n")[0]
    run = subprocess.run([PROGRAM, *shlex.split(first[len("# lldpa "):])], input=text,
                         capture_output=True, text=True, check=True)
    return run.stdout.splitlines()


def replayed(log: Path, line: str) -> Optional[list[str]]:
    """Replays one log up to a line, and returns the tables there. None if the log does not have the
    line."""
    lines = log.read_text().split("\n")
    if line not in lines:
        return None
    before = "\n".join([*lines[:lines.index(line)], "show neighbors", ""])
    return [one for one in answers(log, before) if one.startswith("lldp.")]


def sent(folder: Path, port: str, source: bytes) -> list[bytes]:
    """Replays each log of a folder. Returns the frames that a port sends after the first time of
    day in each log, with `source` as the source address."""
    frames: list[str] = []
    for log in sorted(folder.iterdir(), key=lambda path: path.stat().st_mtime_ns):
        text = log.read_text()
        clock = CLOCK.search(text)
        in_head = len(answers(log, text[:clock.start()])) if clock else 0
        frames += answers(log, text)[in_head:]
    octets = [bytes.fromhex(line.split()[2]) for line in frames if line.startswith(f"tx {port} ")]
    return [one[:6] + source + one[12:] for one in octets]


def differing(folder: Path, moments: Moments) -> list[str]:
    """Returns a text about each moment that is not in exactly one log of the folder, and about each
    log whose replay shows other tables at a moment."""
    wrong = []
    for line, answer in moments.answers.items():
        found = {log.name: tables for log in sorted(folder.iterdir())
                 if (tables := replayed(log, line)) is not None}
        if len(found) != 1:
            wrong.append(f"moment {line!r} is in {len(found)} files")
        wrong += [f"{name}: {lines}" for name, tables in found.items() if tables != answer
                  for lines in [[pair for pair in zip(tables, answer) if pair[0] != pair[1]][:4]]]
    return wrong
