"""Gathers what is seen into tables: lists of neighbors, captures, and a running lldpa-live."""
import time
from typing import Callable, Iterator, Mapping, Optional, Sequence

from lldpa.capture.source import opened
from lldpa.ctl import Ctl

from ..ages import Limit
from ..names import End, Names, shown
from ..plan import Plan
from ..what import What, of_hosts
from .captures import read_captures
from .listing import Listing
from .shows import read_ports
from .tables import Tables

SECONDS_BETWEEN_LOOKS = 0.5


class Gathering:
    """Puts sources into tables, and reports damaged ones. `damaged` says what is wrong with each,
    and `twice` which sources of a host overlap. Methods raise OSError if a file cannot be read,
    ValueError if a capture names no port, and Ended if the agent that reads captures ends."""

    def __init__(self, tables: Tables, program: str, say: Callable[[str], None],
                 oldest: Limit = Limit(), planned: Mapping[str, str] = {}) -> None:
        self.tables = tables
        self.program = program
        self.say = say
        self.oldest = oldest
        self.planned = planned  # the plan's hosts, by normalized names
        self.now = time.time()
        self.damaged: list[str] = []
        self.twice: list[str] = []

    def add_files(self, whats: Sequence[What], files: Iterator[Optional[Listing]]) -> None:
        """Adds the files `whats`. Several captures of a port count as one. `files` yields what is
        in each file that is not a capture of one port, or None for any other capture."""
        for what, listing in zip(of_hosts(whats), files):
            if listing is None:
                self.add_captures(what.host, "", [what.file])
                continue
            for host, one in (listing.hosts or {what.host: listing}).items():
                one = self.of_its_host(host, one, what.file)
                if self.is_usable(host, "", one, what.file):
                    self.need_one(host, self.tables.add_ports(host, one.ports, what.file,
                                                              one.has_all_heard))
                    self.add_reasons(host, one, what.file)
        of_ports: dict[End, list[str]] = {}
        for what in whats:
            if what.port:
                of_ports.setdefault(End(what.host, what.port), []).append(what.file)
                if not what.is_found:
                    opened(what.file).close()
        for end, captures in of_ports.items():
            self.add_captures(end.host, end.port, captures)

    def add_reasons(self, host: str, listing: Listing, file: str) -> None:
        """Notes why ports of a listing have no data, and reports each reason once."""
        for port, reason in listing.reasons.items():
            self.tables.add_reason(host, port, f"{file}: {reason}")
        for reason in dict.fromkeys(listing.reasons.values()):
            self.say(f"{file}: {reason}")
            self.damaged.append(f"{file}: {reason}")

    def of_its_host(self, host: str, listing: Listing, file: str) -> Listing:
        """Returns a listing with a fault if it says that it is of another planned host."""
        if not listing.source:
            return listing
        names = self.tables.names
        asked, here = names.host(listing.source), names.host(host)
        if asked not in self.planned:  # perhaps with a domain that the plan lacks
            names = Names(ignore_case=True, short_names=True)
            asked, here = names.host(listing.source), names.host(host)
        others = {names.host(one) for one in self.planned.values()}
        if asked == here or asked not in others:
            return listing
        return listing._replace(faults=[f"{file}: it is of {shown(listing.source)}, not of "
                                        f"{shown(host)}"])

    def add_captures(self, host: str, port: str, files: Sequence[str]) -> None:
        """Adds a port from its captures or, if `port` is empty, all ports of one capture. Frames
        that a port sent itself do not count. If LLDP frames were skipped, a silent port has no
        data."""
        found = read_captures(files, port, self.program)
        for note in found.notes:
            self.say(note)
        if not self.is_usable(host, port, found, files[0]):
            return
        if not found.ports:
            self.tables.add_reason(host, port, f"{files[0]}: it has no Ethernet interface")
        skipped = next((note for note in found.notes if "is skipped" in note), "")
        names = self.tables.names
        for name, heard in found.ports.items():
            own = names.end(End(host, name))
            neighbors = [one for one in heard if not names.answers(one, own)]
            if neighbors or not skipped:
                self.need_one(host, self.tables.add_ports(host, {name: neighbors}, files[0]))
            else:
                self.tables.add_reason(host, name, skipped)

    def is_usable(self, host: str, port: str, listing: Listing, file: str) -> bool:
        """Returns whether a source can be used. A damaged or old source leaves its port without
        data or, if `port` is empty, each port of the host that has no other source."""
        for fault in listing.faults:
            self.say(fault)
            self.damaged.append(fault)
            self.tables.add_reason(host, port, fault)
        if listing.faults:
            return False
        seen = listing.time or (listing.written if self.oldest.is_by_file else 0.0)
        self.tables.times.append(seen)
        why = self.oldest.why_not(seen, self.now)
        if why:
            self.tables.add_reason(host, port, f"{file}: {why}")
        return not why

    def need_one(self, host: str, why: str) -> None:
        """Gives up on a host if there is a reason why it cannot be judged."""
        if why:
            self.say(why)
            self.twice.append(why)
            self.tables.forget(host, why)

    def add_live(self, host: str, path: str, plan: Plan, seconds: float) -> None:
        """Adds the ports of lldpa-live when each planned port has a neighbor or the time is up."""
        end = time.monotonic() + seconds
        while True:
            ports = read_ports(Ctl(path).text("show", "neighbors"))
            silent = [port for port, neighbors in ports.items() if not neighbors]
            waits = any(self.tables.names.end(End(host, port)) in plan.ends for port in silent)
            if not waits or time.monotonic() >= end:
                break
            time.sleep(SECONDS_BETWEEN_LOOKS)
        self.need_one(host, self.tables.add_ports(host, ports, path))
        self.tables.times.append(self.now)
