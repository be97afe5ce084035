"""Finds the neighbors at the end of captures, with an agent that receives the captured frames."""
import os
from contextlib import suppress
from itertools import islice
from typing import Iterator, Sequence

from lldpa.agent.synchronous import Agent
from lldpa.capture.packets import ETHERNET, BadCapture, interfaces_of, reader_of
from lldpa.capture.pcap import PcapReader
from lldpa.capture.source import Source, opened
from lldpa.capture.trace import SILENT, Told, frames_of
from lldpa.limits import MOST_NEIGHBORS, MOST_PORTS

from ..limits import LimitFault, limited
from .listing import Listing, Ports
from .shows import read_ports

LINES_AT_ONCE = 1000
SECONDS = 20  # of processor time, for a small capture
# a small gzip file may unpack to very much
MOST_UNPACKED = 1 << 27


def read_captures(files: Sequence[str], port: str, program: str) -> Listing:
    """Returns the neighbors of a port from its captures or, if `port` is empty, of each interface
    that the one capture names. Large captures get more time. Raises ValueError, OSError, and Ended
    if the agent ends."""
    stats = [stat_of(file) for file in files]
    seconds = max(SECONDS, sum(one.st_size for one in stats) >> 21)
    try:
        with limited(seconds):
            found = recorded(files, port, program)
    except LimitFault as fault:
        return Listing({}, False, faults=[f"{files[0]}: {fault}"])
    return found._replace(written=stats[0].st_mtime)


def stat_of(file: str) -> os.stat_result:
    """Returns the size of a file, and when it was written."""
    with opened(file) as octets:
        return os.fstat(octets.fileno())


def recorded(files: Sequence[str], port: str, program: str) -> Listing:
    """Returns the neighbors at the end of captures. The agents call the ports p0, p1 and so on."""
    names = [port] if port else interface_names(files[0])
    ports = {name: f"p{number}" for number, name in enumerate(names)}
    sources = [Source(file, "p0" if port else None, ports, MOST_UNPACKED) for file in files]
    heard = list(ports.values()) or ["p0"]  # an agent needs a port
    if len(heard) > MOST_PORTS:  # ports without LLDP frames need no agent
        lines = frames_of(sources, SILENT, False)
        heard = list(dict.fromkeys(line.split(" ", 2)[1] for line in lines)) or ["p0"]
    faults: list[str] = []
    notes: list[str] = []
    times: list[float] = []
    reports = Told(notes.append, faults.append, times.append)
    seen: Ports = {}
    for first in range(0, len(heard), MOST_PORTS):
        some = heard[first:first + MOST_PORTS]
        seen.update(at_the_end(frames_of(sources, reports, True), some, program))
        reports = SILENT  # faults and notes are reported once
    return Listing({name: seen.get(at, ()) for name, at in ports.items()}, False,
                   faults=faults, notes=notes, time=max(times, default=0.0))


def interface_names(file: str) -> Sequence[str]:
    """Returns the names of the Ethernet interfaces of a capture, each once, in their order."""
    with opened(file) as octets:
        interfaces = [one for one in interfaces_of(octets, MOST_UNPACKED)
                      if one.link_type == ETHERNET]
    names = [one.name for one in interfaces if one.name]
    if is_of_one_port(file) or len(names) < len(interfaces):
        raise ValueError(f"{file}: it does not name the port of its frames: write PORT={file}")
    return list(dict.fromkeys(names))


def is_of_one_port(path: str) -> bool:
    """Returns whether a file is a pcap, which names no interface. Damage is reported later."""
    with suppress(OSError, BadCapture), opened(path) as file:
        return isinstance(reader_of(file), PcapReader)
    return False


def at_the_end(lines: Iterator[str], ports: Sequence[str], program: str) -> Ports:
    """Returns the neighbors of some ports at the end of a trace, which may have more ports."""
    with Agent.start(ports, program, receive_only=True, max_neighbors=MOST_NEIGHBORS) as agent:
        while some := list(islice(lines, LINES_AT_ONCE)):
            agent.tell(some)
        return read_ports("\n".join([*agent.ask("show neighbors"), ""]))
