"""Writes neighbors as the table that lldpa-ctl prints, but for its column of VLANs."""

import socket
from contextlib import suppress
from typing import Iterator, List, Sequence

from .agent.show import Identifier, Neighbor, Port, Show, counted, unescaped
from .limits import MOST_NEIGHBORS
from .texts import CUT, columns_of, end_of, printable, wrapped

HEADINGS = ("PORT", "NEIGHBOR", "ITS PORT", "MANAGEMENT", "LEFT")
MANAGEMENT = 3  # the place of the column that is left out first
BETWEEN = "  "
LEAST_WIDTH_OF_TEXT = 20


def table_lines(show: Show, width: int) -> Iterator[str]:
    """Yields the lines of the table, at most so wide, and how many neighbors there are."""
    rows: List[Sequence[str]] = [row_of(neighbor) for neighbor in show.neighbors]
    if rows:
        yield from fitted([HEADINGS, *rows], width)
    said = f"{counted(len(rows), 'neighbor')} on {counted(len(show.ports), 'port')}."
    said += "".join(map(too_little_room, show.ports))
    yield from wrapped(said, max(width, LEAST_WIDTH_OF_TEXT))


def too_little_room(port: Port) -> str:
    if not port.too_many:
        return ""
    return f" {port.name} had no room for a neighbor: a port holds at most {MOST_NEIGHBORS}."


def row_of(neighbor: Neighbor) -> List[str]:
    """Returns the cells of a neighbor. Its name is the System Name, or else the chassis ID. Its
    port is the Port Description if the Port ID is a MAC address or binary, or else the Port ID."""
    name, port = readable(neighbor.name or ""), ""
    if neighbor.port_id.kind in ("mac", "unhandled"):
        port = readable(neighbor.port_descr or "")
    management = readable_address(neighbor.management[0]) if neighbor.management else ""
    return [neighbor.port, name or identifier_text(neighbor.chassis),
            port or identifier_text(neighbor.port_id), management, f"{neighbor.expires} s"]


def identifier_text(identifier: Identifier) -> str:
    return (readable_address if identifier.kind == "ip" else readable)(identifier.text)


def readable_address(shown: str) -> str:
    """Returns an address for people. IPv6 addresses are in their short form."""
    with suppress(OSError):
        return socket.inet_ntop(socket.AF_INET6, socket.inet_pton(socket.AF_INET6, shown))
    return readable(shown)


def readable(shown: str) -> str:
    """Unescapes a text of the agent for people, except what is unsafe on a terminal."""
    return printable(unescaped(shown).decode("utf-8", "surrogateescape"))


def width_of(text: str) -> int:
    """Returns how many columns a printable text occupies on a terminal."""
    return sum(map(columns_of, text))


def fitted(rows: Sequence[Sequence[str]], width: int) -> Iterator[str]:
    """Yields rows as lines. If they are too wide, the management addresses are left out, and then
    the widest columns are cut to the same width."""
    widths = [max(map(width_of, column)) for column in zip(*rows)]
    room = width - len(BETWEEN) * (len(widths) - 1)
    if sum(widths) > room and len(widths) == len(HEADINGS):
        yield from fitted([(*row[:MANAGEMENT], *row[MANAGEMENT + 1:]) for row in rows], width)
        return
    most = max(widths)
    while most > 1 and sum(min(one, most) for one in widths) > room:
        most -= 1
    widths = [min(one, most) for one in widths]
    for row in rows:
        *texts, left = map(cut, row, widths)
        padded = [text + " " * (one - width_of(text)) for text, one in zip(texts, widths)]
        yield cut(BETWEEN.join([*padded, left.rjust(widths[-1])]), width)


def cut(text: str, width: int) -> str:
    """Returns the text, or its beginning and an ellipsis if the text is wider than `width`."""
    if width_of(text) <= width:
        return text
    return text[:end_of(text, 0, max(width - 1, 0))] + CUT
