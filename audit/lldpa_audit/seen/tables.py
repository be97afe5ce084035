"""Collects what is known of the audited hosts: the neighbors of their ports."""
from itertools import filterfalse
from typing import Mapping, NamedTuple, Optional, Sequence

from ..names import End, Names, Seen, shown
from ..plan import Plan


class KnownPort(NamedTuple):
    """A port with data, and its neighbors."""

    end: End
    neighbors: Sequence[Seen]


class Tables:
    """The ports of the audited hosts that have data, by normalized end."""

    def __init__(self, names: Names) -> None:
        self.names = names
        self.hosts: dict[str, str] = {}
        self.ends: dict[End, KnownPort] = {}
        self._reasons: dict[End, str] = {}
        self._files: dict[str, list[str]] = {}
        self._listed: dict[str, str] = {}
        self._forgotten: dict[str, str] = {}
        self.times: list[float] = []  # of each source, in seconds since 1970; 0 if unknown
        self.several: set[str] = set()  # hosts that right links hear with several chassis IDs

    def add_host(self, host: str) -> None:
        """Adds an audited host. Raises ValueError if --short-names merges it with another."""
        before = self.hosts.setdefault(self.names.host(host), host)
        if before != host and self.names.short_names:
            whole = self.names.of_whole_hosts()
            if whole.host(before) != whole.host(host):
                raise ValueError(f"{shown(before)} and {shown(host)} would be one host with "
                                 "--short-names")

    def add_ports(self, host: str, ports: Mapping[str, Sequence[Seen]], file: str = "",
                  has_all_heard: bool = False) -> str:
        """Adds a source: the neighbors of a host's ports. If `has_all_heard`, all other ports of
        the host have no neighbor. Returns an empty text, or why the host cannot be judged: two
        sources have the same port, or both have all ports."""
        self.add_host(host)
        name = self.names.host(host)
        files = self._files.setdefault(name, [])
        files.append(file)
        for port, neighbors in ports.items():
            end = End(host, port)
            known = KnownPort(end, neighbors)
            if self.ends.setdefault(self.names.end(end), known) is not known:
                return f"{end} is in two of these files: {', '.join(files)}"
        if has_all_heard:
            before = self._listed.get(name)
            self._listed[name] = file
            if before is not None:
                return f"{shown(host)} has two lists: {before} and {file}"
        return ""

    def forget(self, host: str, reason: str) -> None:
        """Discards all data of an audited host, for this reason."""
        self._forgotten.setdefault(self.names.host(host), reason)

    def discard_forgotten(self) -> None:
        """Discards the data of the hosts to forget, after all sources were added."""
        for name, reason in self._forgotten.items():
            self._listed.pop(name, None)
            self._reasons[End(name, "")] = reason
        if self._forgotten:
            self.ends = {key: port for key, port in self.ends.items()
                         if key.host not in self._forgotten}

    def known(self, key: End, end: End) -> Optional[KnownPort]:
        """Returns what is known of a planned port, written as `end`. Adds the port if a complete
        list of neighbors lacks it: it has no neighbor. A port for which a reason was noted, such
        as a damaged file, remains without data."""
        known = self.ends.get(key)
        if known is None and self.covers(key):
            known = self.ends[key] = KnownPort(end, ())
        return known

    def neighbors(self, key: End) -> Sequence[Seen]:
        """Returns the neighbors of an end, none if nothing is known of it."""
        known = self.ends.get(key)
        return known.neighbors if known is not None else ()

    def heard(self, key: End, far: End) -> Optional[Seen]:
        """Returns the first neighbor of an end that may be the end `far`, or None."""
        return next((one for one in self.neighbors(key) if self.names.answers(one, far)), None)

    def covers(self, key: End) -> bool:
        """Returns whether it is known what an end hears, perhaps from a complete list that does not
        have the end."""
        return key in self.ends or key.host in self._listed and not self.reason(key)

    def with_data(self) -> set[str]:
        """Returns the hosts of which something is known, even if it is that they hear nobody."""
        return {key.host for key in self.ends} | self._listed.keys()

    def beside(self, plan: Plan) -> list[End]:
        """Returns the ports with data that are not planned, sorted."""
        return sorted(filterfalse(plan.ends.__contains__, self.ends))

    def add_reason(self, host: str, port: str, reason: str) -> None:
        """Notes why a port has no data. An empty port means all ports that no source has."""
        self.add_host(host)
        self._reasons.setdefault(self.names.end(End(host, port)), reason)

    def reason(self, key: End) -> str:
        """Returns why an end has no data, or an empty text if no reason was noted."""
        return self._reasons.get(key) or self._reasons.get(End(key.host, "")) or ""
