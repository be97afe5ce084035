"""Reads the ports of `show neighbors` and their neighbors. An audit of a large network spends most
of its time here, so one expression matches a whole neighbor, and a port that has only one."""
import re
from functools import lru_cache
from sys import intern
from typing import Sequence

from lldpa.agent.show import (CHASSIS_KINDS, DIGITS, NAME, PORT_KINDS, ShowFault, read_show,
                              unescaped)
from lldpa.agent.shown import SAID_KEY

from ..names import NAMELESS, Seen
from . import aggregates
from .listing import Ports
from .neighbor import MOST_KEPT, neighbor

TEXT = "[ -~]*"


def of_port(count: str, too_many: str) -> str:
    """Returns the expression for the lines of a port itself. Its first group is the port's name."""
    return (rf"lldp\.({NAME})\.neighbors={count}\nlldp\.\1\.octets={DIGITS}\n"
            rf"lldp\.\1\.too-many={too_many}\n")


def of_neighbor(first: str, key: str) -> str:
    """Returns the expression for the lines of a neighbor, the first of which begins with `first`,
    and the others with `key`. Its groups are the chassis ID, kind of Port ID, Port ID, the lines
    that come first in the agent's order (Port Description, System Name, first address), and the
    other lines."""
    return (rf"{first}\.chassis\.(?:{'|'.join(sorted(CHASSIS_KINDS))})=({TEXT})\n"
            rf"{key}\.port\.({'|'.join(sorted(PORT_KINDS))})=({TEXT})\n"
            rf"{key}\.ttl={DIGITS}\n{key}\.expires={DIGITS}"
            rf"(?:\n{key}\.port\.descr=({TEXT}))?(?:\n{key}\.chassis\.name=({TEXT}))?"
            rf"(?:\n{key}\.chassis\.descr={TEXT})?(?:\n{key}\.chassis\.caps={TEXT})?"
            rf"(?:\n{key}\.chassis\.mgmt=({TEXT}))?((?:\n{key}\.{SAID_KEY}={TEXT})*)\n")


PORT = re.compile(of_port(f"({DIGITS})", "(yes|no)"))
NEIGHBOR = re.compile(of_neighbor(rf"lldp\.({NAME})\.({DIGITS})", r"lldp\.\1\.\2"))
# most ports have one neighbor
PORT_WITH_ONE = re.compile(of_port("1", "no") + of_neighbor(r"lldp\.\1\.1", r"lldp\.\1\.1"))
AGGREGATION = rf"org\.(?:{'|'.join(map(re.escape, aggregates.KINDS))})"
# the other lines that name the neighbor, or say that its port is a member of an aggregate
FURTHER = re.compile(
    rf"\nlldp\.[^.]+\.[0-9]+\.(chassis\.name|chassis\.mgmt|port\.descr|{AGGREGATION})=(.*)")
OTHER_SHOW = re.compile(rf"lldp\.{NAME}\.sent=|local-chassis\.|configuration\.")


def read_ports(text: str) -> Ports:
    """Returns the neighbors of each port of `show neighbors`. Raises ShowFault with the line."""
    if not text.endswith("\n"):
        raise ShowFault("its last line is incomplete: it was cut short")
    ports: Ports = {}
    at, end = 0, len(text)
    while at < end:
        found = PORT_WITH_ONE.match(text, at)
        seen: tuple[Seen, ...]
        if found is not None:
            port, *lines = found.groups("")
            name, seen, after = intern(port), (neighbor_of(found[0], *lines),), found.end()
        else:
            found = PORT.match(text, at)
            if found is None:
                break
            name, seen, after = intern(found[1]), *neighbors_at(text, found)
        if name in ports:
            first = text.find(found[0].partition("=")[0])
            raise ShowFault(f"line {line_of(text, at)}: the port {name} is in it twice, first in "
                            f"line {line_of(text, first)}")
        if not after:
            break
        ports[name], at = seen, after
    if at < end and (not OTHER_SHOW.match(text, at) or PORT.search(text, at)):
        read_show(text[:-1].split("\n"))  # raises ShowFault
    return ports


def neighbors_at(text: str, port: re.Match[str]) -> tuple[tuple[Seen, ...], int]:
    """Returns the neighbors of a port, whose own lines are given, and the end of their lines; 0 if
    a neighbor is missing."""
    seen: list[Seen] = []
    at = port.end()
    while len(seen) < int(port[2]):
        found = NEIGHBOR.match(text, at)
        if found is None or (found[1], found[2]) != (port[1], str(len(seen) + 1)):
            return (), 0
        seen.append(neighbor_of(found[0], *found.groups("")[2:]))
        at = found.end()
    return (*seen, NAMELESS) if port[3] == "yes" else tuple(seen), at


def neighbor_of(lines: str, chassis: str, kind: str, port_id: str, descr: str, name: str,
                address: str, others: str) -> Seen:
    """Returns the neighbor in these lines, by what an expression has found in them."""
    if others or "\\" in lines:
        further = FURTHER.findall(others)
        return seen_neighbor(chassis, kind, port_id, further, descr, name, address)
    return neighbor(chassis, kind, port_id, name, descr, (address,))


def seen_neighbor(chassis: str, kind: str, port_id: str, further: Sequence[tuple[str, str]],
                  descr: str = "", name: str = "", address: str = "") -> Seen:
    """Returns a neighbor from its identifiers, its first lines and its other lines."""
    addresses, tlvs = [address], []
    for key, value in further:
        if key == "chassis.name":
            name = value
        elif key == "port.descr":
            descr = value
        elif key == "chassis.mgmt":
            addresses.append(value)
        else:
            tlvs.append((key, value))
    return neighbor(plain(chassis), kind, plain(port_id), plain(name), plain(descr),
                    map(plain, addresses), is_aggregated(tuple(tlvs)))


@lru_cache(MOST_KEPT)  # a network has few aggregates, and many ports
def is_aggregated(tlvs: tuple[tuple[str, str], ...]) -> bool:
    """Returns whether TLVs say that a port is a member of an aggregate. Each has its key in `show
    neighbors` and its octets."""
    return aggregates.is_aggregated(octets for key, octets in tlvs
                                    if re.fullmatch(AGGREGATION, key))


def line_of(text: str, at: int) -> int:
    """Returns the number of the line at a place of a text."""
    return text.count("\n", 0, at) + 1


@lru_cache(MOST_KEPT)
def plain(text: str) -> str:
    """Returns a text of `show neighbors` without its escapes."""
    if "\\" not in text or not text.isascii():
        return text
    return unescaped(text).decode(errors="surrogateescape")
