"""Puts NetBox's breakout cables into a plan. Each joins the lanes of one port to several ends."""
import re
from typing import Collection, Iterator, Mapping, Optional, Sequence

from .lanes import FEW, MANY, canonical, schemes_of
from .names import MOST_NAMED, End
from .plan import Link, Plan
from .seen.tables import KnownPort, Tables

NEW = ":?"  # between a port and the number of a lane that no list names


def join_lanes(plan: Plan, tables: Tables) -> Sequence[str]:
    """Gives each link of a breakout cable a lane of its own. The lanes share the name of the whole
    port, since a far end may hear either. Returns notes on the links that are not judged, since
    their lane has a name that another port may have."""
    if not plan.breakouts:
        return ()
    names, planned = tables.names, plan.planned(tables.names)
    ports = ports_of_hosts(plan, tables, planned)
    shared: dict[End, tuple[str, ...]] = {}
    unclear: list[Link] = []
    for whole, links in plan.breakouts.items():
        lanes = Lanes(tables, whole, links, ports[whole.host], planned)
        for lane, link in lanes.joined():
            plan.add_lane(lane, link, names)
            if lanes.share_name:
                shared[whole] = (*shared.get(whole, ()), names.end(lane).port)
        unclear += lanes.unclear
        if lanes.unclear:
            plan.unknown = {*plan.unknown, *lanes.places, whole}
    names = names.with_planned((), shared)
    tables.names = names.with_planned(plan.planned(names))
    plan.not_judged += len(unclear)
    plan.unknown = {*plan.unknown, *(names.end(link.other) for link in unclear)}
    for key, one in plan.ends.items():
        tables.known(key, one.end)  # complete lists may lack lanes
    return notes_of(plan.file, unclear)


def notes_of(file: str, unclear: Sequence[Link]) -> Sequence[str]:
    count, some = len(unclear), [f"{link.one} with {link.other}" for link in unclear[:MOST_NAMED]]
    return [f"{file}: {count} {'link' if count == 1 else 'links'} of breakout cables cannot be "
            "judged, since it is unknown how the lanes are named: "
            f"{', '.join(some)}{', ..' if count > len(some) else ''}"] if count else []


def ports_of_hosts(plan: Plan, tables: Tables, planned: Collection[End]
                   ) -> Mapping[str, Mapping[str, End]]:
    """Returns the planned and the listed ports of each host that has breakout cables, by names as
    `canonical` returns them."""
    found: dict[str, dict[str, End]] = {whole.host: {} for whole in plan.breakouts}
    for key in (*planned, *tables.ends):
        if key.host in found:
            found[key.host].setdefault(canonical(key.port), key)
    return found


def whole_of_new(lane: End) -> End:
    """Returns the whole port of a lane that no list names. Returns any other port as it is."""
    return End(lane.host, lane.port.partition(NEW)[0])


class Lanes:
    """The lanes of a port, `whole`, for the links of a breakout cable. `ports` has the ports of its
    host. A port in `planned` is not a lane. `unclear` gets the links that cannot be judged, and
    `places` the ports where these are seen. All ends are normalized."""

    def __init__(self, tables: Tables, whole: End, links: Sequence[Link],
                 ports: Mapping[str, End], planned: Collection[End]) -> None:
        self._tables = tables
        self._whole = whole
        self._links = links
        self._ports = ports
        self._planned = planned
        self._taken: set[End] = set()
        self._invented = 0
        self._heard = {far: list(self._ports_heard_by(far))
                       for far in (tables.names.end(link.other) for link in links)}
        self.unclear: list[Link] = []
        self.places: list[End] = []
        self._number = ""
        self._names, self._doubtful = self._lane_names()
        self.free = self._listed() if self._number else []

    def _lane_names(self) -> tuple[set[str], set[str]]:
        """Returns the names that the port's lanes have, and those that a lane or another port may
        have."""
        schemes = schemes_of(canonical(self._whole.port), self._ports)
        self._number = schemes[0][1] if schemes else ""
        count = FEW if len(self._links) <= FEW else MANY
        names, beside = [{lane for scheme, number in schemes if scheme.is_beside is is_beside
                          for lane in scheme.lanes_of(number, count if is_beside else 2 * MANY)}
                         for is_beside in (False, True)]
        more = {lane for scheme, number in schemes for lane in scheme.lanes_of(number, MANY)}
        seen = {canonical(end.port) for some in self._heard.values() for end in some}
        if names & (seen | self._ports.keys()):
            return names, set()
        if any(not scheme.is_beside for scheme, _ in schemes):
            return names, more
        return beside, more - beside

    @property
    def share_name(self) -> bool:
        """Returns whether a neighbor that names the whole port may be any lane."""
        return canonical(self._whole.port) not in self._names or not self._is_seen_in_part()

    def _is_seen_in_part(self) -> bool:
        """Returns whether a lane besides the whole port is listed or heard."""
        seen = {*self._ports.values(), *(end for some in self._heard.values() for end in some)}
        return any(self._is_lane(end) and end != self._whole for end in seen)

    def _is_lane(self, key: End) -> bool:
        return canonical(key.port) in self._names and (
            key == self._whole or key not in self._planned)

    def _listed(self) -> list[End]:
        """Returns the lanes that the host's list has, among them the whole port if it hears
        somebody or is the only one."""
        ends = self._tables.ends
        lanes = sorted(key for name in self._names for key in [self._ports.get(name)]
                       if key in ends and key != self._whole and self._is_lane(key))
        if self._whole in ends and (not lanes or self._is_lane(self._whole)
                                    or ends[self._whole].neighbors):
            lanes = [*self._split(), *lanes]
        return lanes

    def joined(self) -> Iterator[tuple[End, Link]]:
        """Yields each link with its lane. Prefers a lane that hears the link's far end, then one
        that the far end hears, then one that hears somebody."""
        left = {self._tables.names.end(link.other): link for link in self._links}
        if not self._number:
            self.unclear += left.values()
            self.places += [place for far in left for place in self._places_of(far)]
            return
        heard = {lane: [far for far in left if self._tables.heard(lane, far)] for lane in self.free}
        for lane in sorted(self.free, key=lambda lane: len(heard[lane])):
            far = next((one for one in heard[lane] if one in left), None)
            if far is not None:
                yield self._take(lane), left.pop(far)
        for far in list(left):
            found = self._heard_by(far)
            if found is not None:
                yield found, left.pop(far)
        self.free.sort(key=lambda lane: not self._tables.ends[lane].neighbors)
        for far, link in left.items():
            places = [place for place in self._places_of(far) if self._may_be_lane(place)]
            if places:
                self.unclear.append(link)
                self.places += places
            else:
                yield self._take(self.free[0]) if self.free else self._new(link.one), link

    def _places_of(self, far: End) -> Iterator[End]:
        """Yields the unplanned ports that hear an end, and those that it hears."""
        for key in self._ports.values():
            if key not in self._planned and self._tables.heard(key, far):
                yield key
        yield from (end for end in self._heard[far] if end not in self._planned)

    def _may_be_lane(self, key: End) -> bool:
        """Returns whether an unknown port may be a lane. Its name then has the whole port's number
        with more behind it, or another scheme gives this name to a lane."""
        name = canonical(key.port)
        is_longer = re.search(rf"(?<![0-9]){re.escape(self._number)}[^0-9]", name)
        return name in self._doubtful or is_longer is not None and name not in self._names

    def _take(self, lane: End) -> End:
        """Takes a lane. Returns it as its list writes it."""
        self._taken.add(lane)
        if lane in self.free:
            self.free.remove(lane)
        known = self._tables.ends.get(lane)
        return known.end if known is not None else lane

    def _ports_heard_by(self, far: End) -> Iterator[End]:
        """Yields the ports of this host that an end hears."""
        names = self._tables.names
        for neighbor in self._tables.neighbors(far):
            if self._whole.host in names.hosts_of(neighbor):
                yield from (names.end(End(self._whole.host, port))
                            for port in names.heeded(neighbor))

    def _heard_by(self, far: End) -> Optional[End]:
        """Takes the lane that an end hears, unless it is taken already."""
        lanes = (key for key in self._heard[far] if self._is_lane(key) and key not in self._taken)
        lane = next(lanes, None)
        return None if lane is None else self._take(lane)

    def _split(self) -> Sequence[End]:
        """Splits the whole port if it has several neighbors: each becomes that of a new lane."""
        ends, whole = self._tables.ends, self._whole
        if len(ends[whole].neighbors) < 2:
            return [whole]
        known = ends.pop(whole)
        lanes = []
        for neighbor in known.neighbors:
            lane = self._new(known.end)
            lanes.append(self._tables.names.end(lane))
            ends[lanes[-1]] = KnownPort(lane, [neighbor])
        return lanes

    def _new(self, whole: End) -> End:
        """Returns a lane that no list names. Its name is that of no other port."""
        while True:
            self._invented += 1
            lane = End(whole.host, f"{whole.port}{NEW}{self._invented}")
            key = self._tables.names.end(lane)
            if key not in self._tables.ends and key not in self._planned:
                return lane
