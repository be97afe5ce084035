"""Holds a plan of the cabling: which ends are to be joined, and what is wrong with its file."""
from collections import defaultdict
from functools import cached_property
from typing import Iterable, Mapping, NamedTuple, Optional, Sequence, Set

from lldpa.faults import LldpaFault

from .names import End, Names, shown, without_domain

MOST_TOLD = 20
MOST_LANES = 16  # no port has more


class PlanFault(LldpaFault):
    """What is wrong with a plan. `texts` has the first faults, each with file and line."""

    def __init__(self, texts: list[str]) -> None:
        super().__init__("\n".join(texts))
        self.texts = texts


class Faults:
    """Collects the faults of a file, so that all are reported at once."""

    def __init__(self, file: str) -> None:
        self.file = file
        self.count = 0
        self._texts: list[str] = []

    def add(self, line: Optional[int], text: str) -> None:
        """Adds a fault, with its line if known."""
        self.count += 1
        if self.count <= MOST_TOLD:
            place = self.file if line is None else f"{self.file}: line {line}"
            self._texts.append(f"{place}: {text}")

    def end(self) -> None:
        """Raises PlanFault if there was a fault."""
        more = self.count - len(self._texts)
        if more:
            self._texts.append(f"{self.file}: {more} more {'fault' if more == 1 else 'faults'}")
        if self._texts:
            raise PlanFault(self._texts)


class Detail(NamedTuple):
    """What else a plan says of a cable: its further columns, and its link's path through panels."""

    texts: Sequence[str] = ()
    path: Sequence[End] = ()


NO_DETAIL = Detail()
FIRST = "1"


class Link(NamedTuple):
    """A planned link: its two ends, and the plan's line for each, if known. The ends of a link
    through panels belong to two cables, each with a line and a detail. A panel's pair of ports
    is also a link; `position` is the front port's position at the rear port, counted from 1."""

    one: End
    other: End
    line: Optional[int]
    other_line: Optional[int] = None
    detail: Detail = NO_DETAIL
    other_detail: Optional[Detail] = None
    position: str = FIRST


class PlannedEnd(NamedTuple):
    """A planned end and the end that it should hear, as the plan writes them. `peer` is the
    latter, normalized. `line` and `detail` are those of the planned end's cable."""

    end: End
    expected: End
    peer: End
    line: Optional[int] = None
    detail: Detail = NO_DETAIL


NO_END = End("", "")
NOT_PLANNED = PlannedEnd(NO_END, NO_END, NO_END)


class Plan:
    """`ends` has the planned ends by normalized name, in the plan's order, with the two ends of a
    link adjacent. `breakouts` has a breakout cable's links by the end in `whole` that they
    share. `columns` names the texts of a detail, `notes` says what is left out, `repeated` has
    each link that an earlier line has too, with that line, `not_judged` counts the links that
    cannot be judged, and `unknown` has their ends. If `is_untyped`, nothing
    says which hosts are patch panels. `names` compares names with those that are planned. Raises
    PlanFault."""

    def __init__(self, file: str, links: Iterable[Link], names: Names,
                 faults: Optional[Faults] = None, whole: Optional[Set[End]] = None) -> None:
        self.file = file
        self.ends: dict[End, PlannedEnd] = {}
        self.breakouts: dict[End, list[Link]] = {}
        self.columns: Sequence[str] = ()
        self.notes: Sequence[str] = ()
        self.not_judged = 0
        self.repeated: list[tuple[Link, Optional[int]]] = []
        self.unknown: Set[End] = set()
        self.is_untyped = False
        faults = faults or Faults(file)
        if names.short_names:
            links = list(links)
            names = names.with_domains_of(end.host for link in links for end in link[:2])
        for link in links:
            if whole and not whole.isdisjoint(link[:2]):
                self._add_breakout(link, whole, names, faults)
            else:
                self._add(link, names, faults)
        self._need_breakouts_apart(names, faults)
        self.hosts = {key.host: planned.end.host for key, planned in self.ends.items()}
        for key, some in self.breakouts.items():
            self.hosts.update((names.host(end.host), end.host) for link in some for end in link[:2])
        if names.short_names:
            self._need_hosts_apart(names, faults)
        faults.end()
        self.names = names.with_planned(self.planned(names) if self.breakouts else self.ends)

    def planned(self, names: Names) -> Set[End]:
        """Returns the planned ends, and all ends of breakout cables, normalized."""
        far = (names.end(link.other) for some in self.breakouts.values() for link in some)
        return {*self.ends, *self.breakouts, *far}

    def _need_hosts_apart(self, names: Names, faults: Faults) -> None:
        """Refuses two planned hosts of one name in two domains, which --short-names ignores."""
        firsts: dict[str, PlannedEnd] = {}
        for planned in self.ends.values():
            name = names.whole_host(planned.end.host)
            first = firsts.setdefault(without_domain(name), planned)
            if names.whole_host(first.end.host) != name:
                faults.add(planned.line, f"{shown(planned.end.host)} would be one host with "
                                         f"{shown(first.end.host)} in line {first.line} with "
                                         "--short-names")

    def _add(self, link: Link, names: Names, faults: Faults) -> None:
        """Plans a link, unless it is already planned."""
        one, other, line, other_line, detail, other_detail, _ = link
        one_key, other_key = names.end(one), names.end(other)
        before, other_before = self.ends.get(one_key), self.ends.get(other_key)
        if before is None and other_before is None and one_key != other_key:
            self.ends[one_key] = PlannedEnd(one, other, other_key, line, detail)
            self.ends[other_key] = PlannedEnd(other, one, one_key, other_line or line,
                                        other_detail or detail)
        elif before is None or before.peer != other_key:
            first = (before or other_before or NOT_PLANNED).line
            faults.add(line, planned_twice(one if before else other, first, line))
        elif not detail.path:  # else a link through panels comes from both of its ends
            self.repeated.append((link, before.line))

    def _add_breakout(self, link: Link, whole: Set[End], names: Names, faults: Faults) -> None:
        """Adds a link of a breakout cable: its end in `whole` has several links."""
        if link.one not in whole:
            link = link._replace(one=link.other, other=link.one)
        some = self.breakouts.setdefault(names.end(link.one), [])
        if some and (some[0].line, some[0].detail) != (link.line, link.detail):
            faults.add(link.line, planned_twice(link.one, None, None))
        if len(some) == MOST_LANES:
            faults.add(link.line, f"{link.one} has more than {MOST_LANES} lanes")
        some.append(link)

    def _need_breakouts_apart(self, names: Names, faults: Faults) -> None:
        """Refuses ends of breakout cables that are planned twice."""
        lines = {key: one.line for key, one in self.ends.items()} if self.breakouts else {}
        for key, links in self.breakouts.items():
            line, others = links[0].line, [(names.end(link.other), link.other) for link in links]
            for one, end in ((key, links[0].one), *others):
                if one in lines:
                    faults.add(line, planned_twice(end, lines[one], line))
                lines[one] = line

    def add_lane(self, lane: End, link: Link, names: Names) -> None:
        """Plans a breakout cable's link at a lane, which must not be planned."""
        self._add(link._replace(one=lane), names, Faults(self.file))

    @cached_property
    def ends_of_hosts(self) -> Mapping[str, Sequence[End]]:
        """Returns the planned ends of each host, all normalized."""
        ends: dict[str, list[End]] = defaultdict(list)
        for key in self.ends:
            ends[key.host].append(key)
        return ends

    def details(self, planned: PlannedEnd) -> Sequence[tuple[str, str]]:
        """Returns the name and the text of each further column that is not empty for an end."""
        return [(name, text) for name, text in zip(self.columns, planned.detail.texts) if text]


def planned_twice(end: End, before: Optional[int], line: Optional[int]) -> str:
    """Returns the fault of an end that was joined in the line `before`, or is joined to itself."""
    if before == line is not None:
        return f"{end} is planned twice in this line"
    return f"{end} is already planned in line {before}" if before else f"{end} is planned twice"
