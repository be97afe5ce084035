"""Finds the links that neighbors show, without a plan."""
from collections import defaultdict
from typing import Iterable, Mapping, NamedTuple, Sequence

from .names import End, Seen
from .seen.tables import KnownPort, Tables


class Link(NamedTuple):
    """A link that one or both of its ends hear. `keys` has the normalized ends, `ends` their names
    as they are shown. The first end hears `seen`, and if `is_mutual` the other hears the first."""

    keys: tuple[End, End]
    ends: tuple[End, End]
    seen: Seen
    is_mutual: bool


def links_of(tables: Tables) -> list[Link]:
    """Returns a link for each two ends that hear each other, and for each other neighbor. A link is
    repeated if an end hears the other more than once."""
    names, hearers = tables.names, hearers_of(tables)
    links, alone = [], []
    for key, known in tables.ends.items():
        near = dict.fromkeys((*hearers.get(key, ()), *hearers.get(End(key.host, ""), ())))
        mutual = [(seen, [far for far in near if far != key and names.answers(seen, far)])
                  for seen in known.neighbors]
        alone += [(key, known, seen) for seen, fars in mutual if not fars]
        fars = [far for _, some in mutual for far in some]
        links += [Link((key, far), (known.end, tables.ends[far].end), seen, True)
                  for seen, some in mutual for far in some if key < far or fars.count(far) > 1]
    shown = Shown(tables, [seen for _, _, seen in alone])
    return links + [shown.link(*one) for one in alone]


def hearers_of(tables: Tables) -> Mapping[End, Sequence[End]]:
    """Returns the ends that hear an end. Those that hear an aggregate of a host, and so perhaps any
    of its ports, are at its end without a port."""
    names = tables.names
    found: dict[End, list[End]] = defaultdict(list)
    for key, known in tables.ends.items():
        for seen in known.neighbors:
            ends = {end for end in names.ends(seen) if end in tables.ends}
            for end in (*ends, *(End(host, "") for host in names.hosts_of_aggregate(seen))):
                found[end].append(key)
    return found


class Shown:
    """Names the neighbors that do not hear the end that hears them. A host has the name in the
    tables, or the first one that it announces. A port has its Port ID, or the Port Description if
    that is more readable and names one port of its host only."""

    def __init__(self, tables: Tables, some: Iterable[Seen]) -> None:
        self._tables = tables
        self._hosts = dict(tables.hosts)
        ids: dict[str, set[str]] = defaultdict(set)
        names: dict[str, list[tuple[str, str]]] = defaultdict(list)
        for seen in some:
            host = self.host_of(seen)
            ids[host].add(id_of(seen))
            names[host].append((best_of(seen), id_of(seen)))
        self._by_id = {host for host, pairs in names.items()
                       if are_unclear(pairs, ids[host])}

    def host_of(self, seen: Seen) -> str:
        """Returns a neighbor's host, normalized: one in the tables, or its first name."""
        hosts = self._tables.names.hosts_of(seen) or ("",)
        return next((host for host in hosts if host in self._tables.hosts), hosts[0])

    def link(self, key: End, known: KnownPort, seen: Seen) -> Link:
        """Returns the link of an end that hears a neighbor, which does not hear this end."""
        host = self.host_of(seen)
        names = self._tables.names
        listed = next((end for port in names.heeded(seen) for end in
                       (End(host, name) for name in names.ports(host, port))
                       if end in self._tables.ends), None)
        if listed is not None:
            far, shown = listed, self._tables.ends[listed].end
        else:
            port = id_of(seen) if host in self._by_id else best_of(seen)
            far = names.end(End(host, id_of(seen)))
            shown = End(self._hosts.setdefault(host, (seen.hosts or ("",))[0]), port)
        return Link((key, far), (known.end, shown), seen, False)


def id_of(seen: Seen) -> str:
    """Returns what identifies a neighbor's port."""
    return seen.port_id or best_of(seen)


def best_of(seen: Seen) -> str:
    return seen.ports[0] if seen.ports else ""


def are_unclear(pairs: Sequence[tuple[str, str]], ids: set[str]) -> bool:
    """Returns whether a name is that of two ports: of pairs of a port's best name and its ID, two
    have the same name, or one has the ID of another as its name."""
    of_names: dict[str, str] = {}
    return any(of_names.setdefault(name, number) != number or name != number and name in ids
               for name, number in pairs)
