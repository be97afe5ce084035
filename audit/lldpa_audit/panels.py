"""Follows links through patch panels: a cable into a panel continues at the panel's other side."""
from collections import Counter
from typing import Iterable, Iterator, NamedTuple, Optional, Sequence, Union

from .names import End, Names
from .plan import Detail, Faults, Link, planned_twice

# a link is followed through at most this many panels, since a ring of panels has no end
MOST_PANELS = 100
ENDLESS = f"its link passes more than {MOST_PANELS} panels"


class Cable(NamedTuple):
    """A cable at a panel: its far end, as written and normalized, its line and its detail."""

    end: End
    key: End
    line: Optional[int]
    detail: Detail


class Panels:
    """Follows cables through panels. If several front ports share a rear port, as with a trunk
    cable, a link leaves the far panel at the position where it entered the near one. `dead_ends`
    has the ends whose links cannot be followed, each with the reason."""

    def __init__(self, pairs: Iterable[Link], names: Names, faults: Faults,
                 faults_of_pairs: Faults) -> None:
        self._names = names
        self._faults = faults
        self._file = faults_of_pairs.file
        self._cables: dict[End, Cable] = {}
        self._pairs: dict[End, Link] = {}
        self._fronts_of: dict[End, dict[str, End]] = {}
        self._hosts: set[str] = set()
        self.dead_ends: list[tuple[End, str]] = []
        for pair in pairs:
            self._add_pair(pair, faults_of_pairs)

    def _add_pair(self, pair: Link, faults: Faults) -> None:
        """Adds a pair of ports. A port in two pairs is a fault, except a shared rear port."""
        front, rear = self._names.end(pair.one), self._names.end(pair.other)
        back = self._pairs.get(rear)
        if back is not None and self._names.end(back.other) == front:
            return  # the same pair, written from its other side
        before = self._pairs.setdefault(front, pair)
        taken = self._fronts_of.setdefault(rear, {}).setdefault(pair.position, pair.one)
        is_other = before[:2] != pair[:2] or before.position != pair.position
        if is_other or front in self._fronts_of:
            faults.add(pair.line, f"{pair.one} is joined to itself" if front == rear else
                       f"{pair.one} is already joined to another port or position")
        elif taken != pair.one or back is not None:
            faults.add(pair.line, f"{pair.other} is also joined to {back.other if back else taken}")
        self._hosts.update((front.host, rear.host))

    def through(self, links: Iterable[Link]) -> Iterator[Link]:
        """Yields the links between devices, and those through panels twice: once from each end."""
        links = list(links)
        for link in links:
            if self.has(link.one) or self.has(link.other):
                self._add(link)
        for link in links:
            one, other = self.has(link.one), self.has(link.other)
            if not one and not other:
                yield link
            elif one != other and not self._faults.count:  # a refused cable may close a ring
                begin, end = (link.other, link.one) if one else link[:2]
                yield from self._followed(begin, self._cable(link, end))

    def has(self, end: End) -> bool:
        """Returns whether an end is a port of a panel."""
        return self._names.host(end.host) in self._hosts

    def _cable(self, link: Link, end: End) -> Cable:
        return Cable(end, self._names.end(end), link.line, link.detail)

    def _add(self, link: Link) -> None:
        """Adds a cable of a panel. Two cables at one port of a panel are a fault of the plan."""
        one, other = self._cable(link, link.one), self._cable(link, link.other)
        for near, far in ((one, other), (other, one)):
            before = self._cables.get(near.key)
            if before is not None and before.key != far.key and self.has(near.end):
                self._faults.add(link.line, planned_twice(near.end, before.line, link.line))
                return
        self._cables[one.key], self._cables[other.key] = other, one

    def _followed(self, begin: End, cable: Cable) -> Iterator[Link]:
        """Yields the link that begins with a cable, unless it cannot be followed to a device."""
        first = cable
        path: list[End] = []
        positions: list[str] = []
        while self.has(cable.end):
            is_endless = len(path) == 2 * MOST_PANELS
            side = ENDLESS if is_endless else self._other_side(cable, positions)
            further = None if isinstance(side, str) else self._cables.get(self._names.end(side))
            if isinstance(side, str) or further is None:
                no_cable = f"{self._faults.file} has no cable at {side}"
                self.dead_ends.append((begin, side if isinstance(side, str) else no_cable))
                return
            path += [cable.end, side]
            cable = further
        yield Link(begin, cable.end, first.line, cable.line, Detail(first.detail.texts, path),
                   Detail(cable.detail.texts, path[::-1]))

    def _other_side(self, cable: Cable, positions: list[str]) -> Union[End, str]:
        """Returns the other side of the panel where a cable ends, or why that side is not known.
        `positions` has the link's position in each trunk that the link has entered and not left."""
        pair = self._pairs.get(cable.key)
        if pair is not None:
            positions.append(pair.position)
            return pair.other
        fronts = self._fronts_of.get(cable.key, {})
        if not fronts:
            return f"{self._file} has no row for {cable.end}"
        if not positions:
            return next(iter(fronts.values())) if len(fronts) == 1 else (
                f"{cable.end} has {len(fronts)} positions, and nothing says which one is meant")
        position = positions.pop()
        return fronts.get(position) or f"{self._file} has no position {position} at {cable.end}"


def fewest_links(begins: Sequence[End]) -> int:
    """Returns the least number of links that can have these ends; a link joins two hosts."""
    of_hosts = Counter(end.host for end in begins)
    return max((len(begins) + 1) // 2, *of_hosts.values()) if begins else 0
