"""Reads the output of lldpa's `show` commands (`read_show`), and writes such output (`lines_of`).

Each line is `KEY=VALUE`; the manual page lldpa(1) lists every key.
"""

import re
from functools import lru_cache
from sys import intern
from typing import Dict, Iterable, Iterator, List, Mapping, Optional, Tuple

from ..faults import LldpaFault
from ..limits import MOST_PORTS, is_port_name
from .show_lines import counted, lines_of, shown_key
from .shown import (NUMBERED_KEY, SAID_KEY, SAID_KEYS, Configuration, Counters, Identifier,
                    LocalChassis, Neighbor, Port, Show)

__all__ = ["Configuration", "Counters", "Identifier", "LocalChassis", "Neighbor", "Port", "Show",
           "ShowFault", "counted", "lines_of", "read_show", "unescaped"]

# patterns for a number and for the name of a port
DIGITS = "(?:0|[1-9][0-9]{0,18})"
NAME = r"[A-Za-z0-9_/:-]{1,15}"

STATUSES = ("rx-and-tx", "rx-only", "tx-only", "disabled")
CHASSIS_KINDS = {"component", "ifalias", "portcomp", "mac", "ip", "ifname", "local", "unhandled"}
PORT_KINDS = {"ifalias", "component", "mac", "ip", "ifname", "circuit", "local", "unhandled"}
MOST_SAID = 1 << 16  # octets of the lines of a neighbor: twice what one frame can say
ESCAPE = rb"\\(\\|x[0-9a-f]{2})"


class ShowFault(LldpaFault, ValueError):
    """The lines are not `show` output. The message names the line and what was expected."""

def unescaped(text: str) -> bytes:
    """Returns the octets of an escaped text."""
    def octet(found: re.Match[bytes]) -> bytes:
        return b"\\" if found[1] == b"\\" else bytes.fromhex(found[1][1:].decode())
    octets = text.encode("ascii")
    return re.sub(ESCAPE, octet, octets) if b"\\" in octets else octets


def read_show(lines: Iterable[str]) -> Show:
    """Reads the output of one or several `show` commands.

    Their order must be neighbors, statistics, chassis, configuration. A line may end with a line
    feed. Counters and settings of a newer agent are skipped. Raises ShowFault, which names the
    line, if another line is unknown or out of place.
    """
    return Reader(lines).show()


class Reader:
    """Reads the lines one after another, and checks that each is what is expected next."""

    def __init__(self, lines: Iterable[str]) -> None:
        self.lines = iter(lines)
        self.number = 0  # of the next line
        self.line: Optional[str] = ""  # the next one, or None at the end
        self.before: Optional[str] = ""  # the one that was read last
        self.advance()

    def advance(self) -> None:
        """Goes on to the next line."""
        self.before, self.line = self.line, next(self.lines, None)
        self.number += 1
        line = self.line
        if line is not None and not (line.isascii() and line.isprintable()):
            self.line = line = line[:-1] if line.endswith("\n") else line
            if not (line.isascii() and line.isprintable()):
                raise self.fault("a line of printable ASCII characters")

    def fault(self, expected: str) -> ShowFault:
        """Returns a ShowFault, which says that the next line is not what was expected."""
        return self.fault_at(self.number, self.line, expected)

    def fault_at(self, number: int, line: Optional[str], expected: str) -> ShowFault:
        found = "the end" if line is None else repr(line)
        return ShowFault(f"line {number}: expected {expected}, but found {found}")

    def next(self) -> str:
        """Returns the next line without consuming it, or an empty text at the end."""
        return self.line or ""

    def text(self, key: str) -> str:
        """Reads the next line, which must have this key. Returns its value."""
        line = self.next()
        if not line.startswith(key + "="):
            raise self.fault(f"{key}=")
        self.advance()
        return line[len(key) + 1:]

    def number_of(self, key: str) -> int:
        """Reads the next line, which must have this key and a number. Returns the number."""
        text = self.text(key)
        is_number = text.isdigit() and len(text) < 20 and (text[0] != "0" or text == "0")
        self.check(is_number, f"{key}= and a number")
        return int(text)

    def check(self, is_right: bool, expected: str) -> None:
        """Raises ShowFault about the line that was read last, unless `is_right`."""
        if not is_right:
            raise self.fault_at(self.number - 1, self.before, expected)

    def port_of(self, front: str, key: str) -> str:
        """Returns PORT if the next line begins with `FRONT.PORT.KEY=`, else an empty text."""
        words = self.next().split(".", 2)
        if words[0] == front and words[-1].startswith(f"{key}=") and is_port_name(words[1]):
            return words[1]
        return ""

    def show(self) -> Show:
        """Reads all lines, and returns their contents."""
        ports = tuple(self.ports())
        counters = dict(self.counters())
        chassis = self.chassis() if self.next().startswith("local-chassis.") else None
        configuration = self.configuration() if self.next().startswith("configuration.") else None
        if self.line is not None:
            raise self.fault("shows in the order neighbors, statistics, chassis, configuration")
        return Show(ports, counters, chassis, configuration)

    def ports(self) -> Iterator[Port]:
        """Reads the ports of `show neighbors`."""
        for port in self.heads():
            places = range(1, port.neighbors_held + 1)
            yield port._replace(neighbors=tuple(self.neighbor(port.name, one) for one in places))

    def heads(self) -> Iterator[Port]:
        """Reads the first lines of each port of `show neighbors`, which its neighbors follow."""
        names: set[str] = set()
        while name := self.port_of("lldp", "neighbors"):
            count = self.number_of(f"lldp.{name}.neighbors")
            self.check(name not in names and len(names) < MOST_PORTS,
                       "a port that is not listed above")
            names.add(name)
            octets = self.number_of(f"lldp.{name}.octets")
            too_many = self.text(f"lldp.{name}.too-many")
            self.check(too_many in ("yes", "no"), f"lldp.{name}.too-many=yes or no")
            yield Port(name, count, octets, too_many == "yes")

    def neighbor(self, port: str, place: int) -> Neighbor:
        """Reads one neighbor, including the lines of its optional TLVs."""
        front = f"lldp.{port}.{place}."
        chassis = self.identifier(front + "chassis.", CHASSIS_KINDS)
        port_id = self.identifier(front + "port.", PORT_KINDS)
        ttl, expires = self.number_of(front + "ttl"), self.number_of(front + "expires")
        said: List[Tuple[str, str]] = []
        begin, room = len(front), MOST_SAID
        while (line := self.line or "").startswith(front):
            key, mark, value = line[begin:].partition("=")
            room -= len(line)
            if not mark or not is_said(key) or room < 0:
                raise self.fault("a key of a neighbor")
            said.append((intern(key), value))  # neighbors have the same keys
            self.advance()
        return Neighbor(port, place, chassis, port_id, ttl, expires, tuple(said))

    def identifier(self, front: str, kinds: set[str]) -> Identifier:
        line = self.next()
        self.advance()
        kind, mark, text = line[len(front):].partition("=")
        self.check(line.startswith(front) and mark != "" and kind in kinds, front + "KIND=")
        return Identifier(kind, text)

    def counters(self) -> Iterator[Tuple[str, Counters]]:
        """Yields the name and the counters of each port of `show statistics`."""
        names: set[str] = set()
        while name := self.port_of("lldp", "sent"):
            if name in names or len(names) == MOST_PORTS:
                raise self.fault("a port that is not listed above")
            names.add(name)
            front, fields = f"lldp.{name}.", Counters._fields
            numbers = [self.field(front, field, Counters._field_defaults) for field in fields]
            self.skip(front, fields, DIGITS)
            yield name, Counters(*numbers)

    def field(self, front: str, field: str, defaults: Mapping[str, int]) -> int:
        """Reads a number. One that has a default may be missing: the agent is older."""
        key = front + shown_key(field)
        is_missing = field in defaults and not self.next().startswith(f"{key}=")
        return defaults[field] if is_missing else self.number_of(key)

    def skip(self, front: str, known: Iterable[str], value: str) -> None:
        """Skips lines with unknown keys: the agent is newer."""
        keys = "|".join(map(shown_key, known))
        further = f"(?!(?:{keys})=)[a-z][a-z-]*={value}"
        while (line := self.next()).startswith(front) and re.fullmatch(further, line[len(front):]):
            self.advance()

    def chassis(self) -> LocalChassis:
        keys = LocalChassis._fields[:-1]
        told = LocalChassis(**{key: self.text(f"local-chassis.{key}") for key in keys})
        if self.next().startswith("local-chassis.mgmt="):
            told = told._replace(mgmt=self.text("local-chassis.mgmt"))
        return told

    def configuration(self) -> Configuration:
        front = "configuration."
        numbers: Dict[str, int] = {}
        statuses: Dict[str, str] = {}
        for field in Configuration._fields:
            numbers[field] = self.field(front, field, Configuration._field_defaults)
            self.skip(front, Configuration._fields, ".*")
        count = numbers.pop("statuses")
        while (name := self.port_of("configuration", "status")) and name not in statuses:
            if len(statuses) == MOST_PORTS:
                raise self.fault(f"at most {MOST_PORTS} ports")
            statuses[name] = self.text(f"{front}{name}.status")
            self.check(statuses[name] in STATUSES, f"one of {', '.join(STATUSES)}")
            self.skip(f"{front}{name}.", ["status"], ".*")
        if len(statuses) != count:
            raise self.fault(f"the status of {counted(count, 'port')}, each once")
        return Configuration(**numbers, statuses=statuses)


@lru_cache(1024)
def is_said(key: str) -> bool:
    """Returns whether a neighbor's optional line may have this key. Tries the slow pattern last."""
    return bool(key in SAID_KEYS or re.fullmatch(NUMBERED_KEY, key) or re.fullmatch(SAID_KEY, key))
