"""Finds the files in a folder: HOST.json, or the files below a folder HOST."""
import os
from contextlib import suppress
from typing import Callable, Iterable, Iterator, Sequence

from lldpa.capture.source import hold

from ..what import What, read_what, without_ending
from .captures import is_of_one_port

Say = Callable[[str], None]


def read_whats(words: Sequence[str], ours: str, say: Say) -> Iterator[What]:
    """Yields the files that the arguments name, and each file in the folders that the arguments
    name. Reports what is skipped. Raises OSError, and ValueError if a folder has no files."""
    for word in words:
        what = read_what(word, ours)
        if what.port or not os.path.isdir(what.file):
            yield what
            continue
        files = list(of_host(what.host, what.file, say) if what.file != word
                     else of_hosts(word, say))
        if not files:
            raise ValueError(f"{what.file}: it is a folder without files to read")
        yield from files


def hold_pipes(whats: Iterable[What]) -> None:
    """Copies what is in pipes, which can be read only once. No file of a folder is a pipe. Raises
    OSError."""
    for what in whats:
        if not what.is_found:
            hold(what.file)


def of_hosts(folder: str, say: Say) -> Iterator[What]:
    """Yields the files of a folder. A file or its subfolder has the name of the host."""
    for entry in entries(folder, say):
        if entry.is_dir():
            yield from of_host(entry.name, entry.path, say)
        else:
            yield What(without_ending(entry.name), "", entry.path, True)


def of_host(host: str, folder: str, say: Say) -> Iterator[What]:
    """Yields the files of a host. A capture of one port is named after the port."""
    left = [folder]
    while left:
        for entry in entries(left.pop(), say):
            if entry.is_dir(follow_symlinks=False):
                left.append(entry.path)
            elif entry.is_file():
                port = without_ending(entry.name) if is_of_one_port(entry.path) else ""
                yield What(host, port, entry.path, True)
            else:
                say(f"{entry.path}: it is a link to a folder, and is skipped")


def entries(folder: str, say: Say) -> Iterator["os.DirEntry[str]"]:
    """Yields the entries of a folder that are not hidden, sorted by name. Reports what it skips."""
    with os.scandir(folder) as found:
        there = sorted((one for one in found if not one.name.startswith(".")),
                       key=lambda one: one.name)
    for one in there:
        why = why_passed_over(one)
        if why:
            say(f"{one.path}: {why}, and is skipped")
        else:
            yield one


def why_passed_over(entry: "os.DirEntry[str]") -> str:
    """Returns why an entry can be neither a list of neighbors nor a capture, or an empty text."""
    if entry.name.endswith(("~", ".bak", ".orig", ".swp", ".tmp")):
        return "it is named like a backup copy"
    with suppress(OSError):  # of a link that leads to itself
        if entry.is_dir() or entry.is_file():
            return ""
    return "it is a link that leads nowhere" if entry.is_symlink() else "it is not a file"
