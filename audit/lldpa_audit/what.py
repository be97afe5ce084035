"""Reads the arguments WHAT of the command line: files of hosts and of ports."""
import os
import re
from typing import Iterable, Iterator, NamedTuple, Sequence

from .names import End
from .plan import Plan

# endings of files' names that are not part of the name of a host or port
ENDINGS = (".gz", ".json", ".json0", ".xml", ".walk", ".txt", ".show", ".out", ".pcap", ".pcapng",
           ".cap")
# ntc-templates' name of a platform at the end of a file's name; no host's name has such an end
PLATFORM = re.compile(r"(.+)[.]([a-z0-9]+(?:_[a-z0-9]+)+)")


class What(NamedTuple):
    """A file of a host, with the port if it is a capture of one port. If the host is empty,
    `placed` finds it. If a file from a folder (`is_found`) cannot be opened, the audit goes on."""

    host: str
    port: str
    file: str
    is_found: bool = False


def read_what(word: str, ours: str) -> What:
    """Reads an argument as FILE, PORT=FILE or HOST:FILE: the first of these whose file exists."""
    forms = [What("", "", word)]
    forms += [What(ours, port, file) for port, file in splits_at(word, "=")]
    forms += [What(host, "", file) for host, file in splits_at(word, ":")]
    there = (form for form in forms if os.path.exists(form.file))
    return next(there, forms[min(1, len(forms) - 1)])


def placed(what: What, plan: Plan, ours: str) -> What:
    """Finds the host of a file without a host, and splits HOST:PORT. A colon belongs to the port if
    the plan has such a port, or if a number follows it and no planned host precedes it."""
    if not what.host:
        return what._replace(host=host_of_file(what.file, plan, ours))
    if ":" not in what.port or plan.names.end(End(what.host, what.port)) in plan.ends:
        return what
    forms = [What(host, port, what.file) for host, port in splits_at(what.port, ":")]
    planned = [form for form in forms if plan.names.host(form.host) in plan.hosts]
    if planned:
        return planned[0]
    is_port = not forms or what.port.rpartition(":")[2].isdecimal()
    return what if is_port else forms[0]


def host_of_file(file: str, plan: Plan, ours: str) -> str:
    """Returns the host that a file is named after, or `ours` if the plan has `ours` but not that
    host."""
    named = without_ending(os.path.basename(file))
    is_named = plan.names.host(named) in plan.hosts
    return named if is_named or plan.names.host(ours) not in plan.hosts else ours


def without_ending(name: str) -> str:
    """Returns a file's name without endings that say its form, such as `.json.gz`."""
    return split_off_platform(name)[0]


def split_off_platform(name: str) -> tuple[str, str]:
    """Returns a file's name without such endings, and the platform that it names, or none."""
    front, ending = os.path.splitext(name)
    if front and ending.lower() in ENDINGS:
        return split_off_platform(front)
    found = PLATFORM.fullmatch(name)
    return (found[1], found[2]) if found else (name, "")


def platform_of(file: str, given: Sequence[str]) -> str:
    """Returns the platform, perhaps with `=COMMAND`, of the switch whose text is in a file: the one
    at the end of the file's name, or else the first of the given ones."""
    name = os.path.basename(file)
    named = split_off_platform(name)[1] if "_" in name else ""  # quicker, for many files
    fitting = [one for one in given if named in ("", one.partition("=")[0])]
    return fitting[0] if fitting else named


def of_hosts(whats: Iterable[What]) -> list[What]:
    """Returns the files that are not captures of one port."""
    return [what for what in whats if not what.port]


def splits_at(word: str, mark: str) -> Iterator[tuple[str, str]]:
    """Yields what precedes and follows each mark in a word, unless either is empty."""
    for at, letter in enumerate(word):
        if letter == mark and 0 < at < len(word) - 1:
            yield word[:at], word[at + 1:]
