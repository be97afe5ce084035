"""Converts captures to one trace for lldpa, which has the LLDP frames in the order of their time
stamps, and the seconds between the frames."""

import os
from collections import Counter
from contextlib import suppress
from heapq import merge
from typing import Callable, Dict, Iterator, List, NamedTuple, Optional, Sequence

from ..faults import LldpaFault
from .packet import ETHERNET, LINK_TYPES, SECOND, CaptureInterface
from .packets import BadCapture, Reader, interfaces_of, reader_of
from ..agent.framing import rx, ticks
from .source import PORT_NAME_RULE, UNNAMED, Source, opened, port_of
from ..limits import (LONGEST_FRAME, MOST_PORTS, MOST_TICKS, NEAREST_BRIDGE, SHORTEST_FRAME,
                      is_port_name)

__all__ = ["Source", "Told", "TooManyPorts", "frames_of", "ports_of", "trace_of"]

ETHERTYPE = bytes.fromhex("88cc")
TAGS = (b"\x81\x00", b"\x88\xa8", b"\x91\x00")
MOST_OF_A_KIND = 5  # notes to report in full

Tell = Callable[[str], None]


class TooManyPorts(LldpaFault):
    """The captures have frames for more ports than an agent can have."""

class Told(NamedTuple):
    """Functions that receive notes on the trace (`note`), faults that make the trace incomplete
    (`fault`), and the last time stamp of each capture in seconds since 1970 (`end`)."""
    note: Tell
    fault: Tell
    end: Callable[[float], None] = lambda _: None


SILENT = Told(lambda _: None, lambda _: None)


class Notes:
    """Reports the first five notes of each kind about a file, and the number of all others."""

    def __init__(self, tell: Tell, file: str) -> None:
        self._tell = tell
        self._file = file
        self._counts: Counter[str] = Counter()

    def tell(self, kind: str, text: str) -> None:
        """Reports a note if it is one of the first five of its kind."""
        self._counts[kind] += 1
        if self._counts[kind] <= MOST_OF_A_KIND:
            self._tell(f"{self._file}: {text}")

    def end(self) -> None:
        """Reports how many notes were left out."""
        more = sum(max(0, count - MOST_OF_A_KIND) for count in self._counts.values())
        if more:
            self._tell(f"{self._file}: {more} more such {'note' if more == 1 else 'notes'}")
        self._counts.clear()


class Moment(NamedTuple):
    """A time in a capture, the line of a frame (empty if there is none), and the file's notes."""
    time: Optional[int]
    line: str
    notes: Notes


def ports_of(sources: Sequence[Source]) -> List[str]:
    """Returns the ports of captures, in the order of sources and interfaces, each once.

    If there are more than 64 ports, returns only the ports that have LLDP frames. Raises
    TooManyPorts if more than 64 ports have LLDP frames. Standard input and pipes can be read only
    once, so each counts as one port: the port given in its source, or eth0.
    """
    ports: Dict[str, None] = {}
    for source in sources:
        ports.update((name, None) for name in names_of(source) if is_port_name(name))
    if len(ports) > MOST_PORTS:
        heard = {line.split(" ")[1] for line in frames_of(sources, SILENT, False)}
        ports = {name: None for name in ports if name in heard}
    if len(ports) > MOST_PORTS:
        raise TooManyPorts(f"{len(ports)} ports have LLDP frames; the limit is {MOST_PORTS}")
    return list(ports)


def names_of(source: Source) -> Sequence[str]:
    """Returns a port for each known Ethernet interface of a capture; one port if none is known."""
    interfaces: List[CaptureInterface] = []
    if source.port is None and os.path.isfile(source.file):
        with suppress(OSError), opened(source.file) as file:
            interfaces = interfaces_of(file)
    ethernet = [one for one in interfaces if one.link_type == ETHERNET]
    return [port_of(source, one) for one in ethernet] or [source.port or UNNAMED]


def trace_of(sources: Sequence[Source], told: Told, seconds: bool = True) -> Iterator[str]:
    """Yields the lines of the trace. If `seconds` is false, the trace has no `tick` lines.

    If a capture cannot be read completely, reports a fault that names the file, and continues with
    the other captures. Raises TooManyPorts before the first line.
    """
    ports_of(sources)
    yield from frames_of(sources, told, seconds)


def frames_of(sources: Sequence[Source], told: Told, seconds: bool) -> Iterator[str]:
    """Yields the lines of a trace. Captures without time stamps come first."""
    start: Optional[int] = None
    passed = 0  # whole seconds since the start
    moments = (Recording(source, told).moments() for source in sources)
    for time, line, notes in merge(*moments, key=lambda moment: moment.time or 0):
        if seconds and time is not None:
            start = time if start is None else start
            missing = (time - start) // SECOND - passed
            passed += missing
            if missing > MOST_TICKS:
                notes.tell("jump", f"no packet for {missing} s (was the clock set?): counted as "
                           f"{MOST_TICKS} s, after which every neighbor has aged out")
                missing = MOST_TICKS
            yield from ticks(missing)
        if line:
            yield line


class Recording:
    """The moments of one capture: its beginning, its LLDP frames, and its end."""

    def __init__(self, source: Source, told: Told) -> None:
        self._source = source
        self._told = told
        self._notes = Notes(told.note, source.file)
        self._latest: Optional[int] = None
        self._last_stamp: Optional[int] = None
        self._ports: Dict[CaptureInterface, str] = {}

    def moments(self) -> Iterator[Moment]:
        """Yields the moments. Their times never go back."""
        try:
            with opened(self._source.file) as file:
                yield from self._frames(reader_of(file, self._source.most_unpacked))
        except BadCapture as why:
            self._fault(str(why))
        except OSError as error:
            self._fault(error.strerror or str(error))
        self._notes.end()
        if self._last_stamp is not None:
            self._told.end(self._last_stamp / SECOND)
        yield Moment(self._latest, "", self._notes)

    def _frames(self, reader: Reader) -> Iterator[Moment]:
        """Yields the beginning and the LLDP frames. Other packets only advance the time."""
        shift, interface_before = 0, None
        for interface, stamp, begin, end, length in reader.looks(NEAREST_BRIDGE):
            if interface is not interface_before:
                interface_before = interface
                self._need_ethernet(interface)
            if stamp is not None:
                self._last_stamp, time = stamp, stamp + shift
                if self._latest is None:
                    yield Moment(time, "", self._notes)
                elif time < self._latest:
                    shift += self._set_back(self._latest - time)
                    time = self._latest
                self._latest = time
            line = self._line(reader.number, interface, reader.window.octets[begin:end], length)
            if line:
                yield Moment(self._latest, line, self._notes)

    def _line(self, number: int, interface: CaptureInterface, octets: bytes, length: int) -> str:
        """Returns a packet's line, or an empty text if the packet is not LLDP or is skipped."""
        if interface.link_type != ETHERNET or not is_lldp(octets, length):
            return ""
        fault = fault_of(octets, length)
        if fault:
            self._notes.tell(fault, f"frame {number} is skipped: it is "
                                    f"{fault.format(len(octets), length)}")
            return ""
        port = self._ports.get(interface)
        if port is None:
            port = self._ports[interface] = self._port(interface)
        return rx(port, octets) if port else ""

    def _port(self, interface: CaptureInterface) -> str:
        """Returns an interface's port. Reports a fault and returns an empty text for a bad name."""
        port = port_of(self._source, interface)
        if is_port_name(port):
            return port
        self._fault(f"its interface {port!r} cannot be a port: {PORT_NAME_RULE}; "
                    f"name the port with --port '{port}=NAME'")
        return ""

    def _need_ethernet(self, interface: CaptureInterface) -> None:
        """If an interface is not Ethernet, reports once that its packets are skipped."""
        if interface.link_type != ETHERNET and interface not in self._ports:
            self._ports[interface] = ""
            name = f" of its interface {interface.name!r}" if interface.name else ""
            kind = LINK_TYPES.get(interface.link_type, "unknown")
            self._fault(f"the link type{name} is {kind} ({interface.link_type}); only "
                        "ETHERNET (1) is read: capture on an Ethernet interface")

    def _fault(self, why: str) -> None:
        self._told.fault(f"{self._source.file}: {why}")

    def _set_back(self, nanoseconds: int) -> int:
        """Returns how much to add to all later times after a time stamp went back by this much.
        This is 0 for less than a second, since packets of several queues may be out of order."""
        if nanoseconds < SECOND:
            return 0
        self._notes.tell("set back", f"the time stamps go back by {nanoseconds // SECOND} s; "
                                     "the trace goes on as if no time had passed")
        return nanoseconds


def is_lldp(octets: bytes, length: int) -> bool:
    """Returns whether this may be an LLDP frame to the nearest bridge address, tagged or not."""
    if octets[12:14] == ETHERTYPE:
        return octets.startswith(NEAREST_BRIDGE)
    if len(octets) == length < SHORTEST_FRAME:
        return False
    place = 12
    while octets[place:place + 2] in TAGS:
        place += 4
    kind = octets[place:place + 2]
    return octets.startswith(NEAREST_BRIDGE) and ETHERTYPE.startswith(kind)


def fault_of(octets: bytes, length: int) -> str:
    """Returns why an LLDP frame is skipped (a format string for two lengths), or an empty text."""
    if len(octets) < length:
        return "truncated to {} of {} octets"
    if octets[12:14] in TAGS:
        return "tagged"
    if len(octets) > LONGEST_FRAME:
        return f"longer than {LONGEST_FRAME} octets"
    return ""
