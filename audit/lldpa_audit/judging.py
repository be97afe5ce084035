"""Judges the ends of planned links by what is seen. audit/README.md defines each verdict."""
from collections import defaultdict
from enum import Enum
from functools import cached_property
from typing import Iterator, Mapping, NamedTuple, Optional, Sequence, Union

from .names import End, Seen
from .plan import Plan, PlannedEnd
from .seen.tables import Tables, KnownPort


# two candidates for a partner suffice, since only the wanted end is excluded: an end that hears an
# aggregate of the host that it wants is right
MOST_TRIED = 2


class Verdict(Enum):
    RIGHT = "right"
    WRONG = "wrong"
    SWAPPED = "swapped"
    SILENT = "silent"
    MOVED = "moved"
    EXTRA = "extra"
    DOUBLED = "doubled"
    ONE_SIDED = "one-sided"
    DISAGREES = "disagrees"
    UNPLANNED = "unplanned"
    NO_DATA = "no data"
    NOT_LOOKED_AT = "not looked at"
    KNOWN = "known"


# the verdicts on an end that hears the end that it wants
HEARD = (Verdict.RIGHT, Verdict.EXTRA, Verdict.ONE_SIDED, Verdict.DISAGREES)


class Finding(NamedTuple):
    """The verdict on `end`. `expected` is the end it should see, None if `end` is unplanned. `has`
    lists its neighbors, `partner` is the end it is swapped with, and `reason` excuses its fault.
    If its cable was moved, `moved_to` is the unplanned port where the cable is. `by` says by which
    weaker names the expected end is heard."""

    end: End
    verdict: Verdict
    expected: Optional[End]
    has: Sequence[Seen] = ()
    partner: Optional[End] = None
    reason: str = ""
    moved_to: Optional[End] = None
    by: str = ""


class Judge:
    """Judges ends by a plan and by what is seen. Its methods take normalized ends."""

    def __init__(self, plan: Plan, tables: Tables) -> None:
        self.plan = plan
        self.tables = tables
        self.names = tables.names
        self._chassis: dict[str, str] = {}  # the first chassis ID of each host
        self._planned_ports = 0  # how many planned ends have data

    def planned(self) -> Iterator[Finding]:
        """Yields a finding for each planned end of an audited host or of a link not looked at."""
        hosts, ends, items = self.tables.hosts, self.tables.ends, iter(self.plan.ends.items())
        for (one, planned), (other, far) in zip(items, items):  # the two ends of a link
            known = ends.get(one) or self.tables.known(one, planned.end)
            other_known = ends.get(other) or self.tables.known(other, far.end)
            self._planned_ports += (known is not None) + (other_known is not None)
            is_right = ((known is None or self.has_only(known, planned.peer))
                        and (other_known is None or self.has_only(other_known, far.peer)))
            if one.host in hosts:
                yield self.finding(one, planned, known, is_right)
            elif other_known is None:
                yield Finding(planned.end, Verdict.NOT_LOOKED_AT, planned.expected)
            if other.host in hosts:
                yield self.finding(other, far, other_known, is_right)
            elif known is None:
                yield Finding(far.end, Verdict.NOT_LOOKED_AT, far.expected)

    def unplanned(self) -> Iterator[Finding]:
        """Yields a finding for each unplanned port with a neighbor. `planned` comes before it."""
        if self._planned_ports == len(self.tables.ends):
            return  # a large network need not be searched
        for end in self.tables.beside(self.plan):
            known = self.tables.ends[end]
            if known.neighbors and end not in self.plan.unknown:
                yield Finding(known.end, Verdict.UNPLANNED, None, known.neighbors)

    def finding(self, end: End, planned: PlannedEnd, known: Optional[KnownPort], is_right: bool
                ) -> Finding:
        """Judges a planned end. If `is_right`, its link's ends with data hear only each other."""
        if known is None:
            return Finding(planned.end, Verdict.NO_DATA, planned.expected)
        verdict, partner = Verdict.RIGHT, None
        if not is_right:
            verdict = self.verdict(end, planned.peer, known.neighbors)
        if verdict is Verdict.RIGHT:
            host, chassis = planned.expected.host, known.neighbors[0].chassis
            if chassis and self._chassis.setdefault(host, chassis) != chassis:
                self.tables.several.add(host)
        elif verdict is Verdict.WRONG:
            partner = self.partner(end, planned.peer, known.neighbors[0])
        its = self.tables.heard(end, planned.peer) if verdict in HEARD else None
        return Finding(planned.end, Verdict.SWAPPED if partner else verdict, planned.expected,
                       known.neighbors, partner,
                       by=self.names.by(its, planned.peer) if its is not None else "")

    def has_only(self, known: KnownPort, end: End) -> bool:
        """Returns whether a port has exactly one neighbor, which may be this end."""
        return len(known.neighbors) == 1 and self.names.answers(known.neighbors[0], end)

    def verdict(self, end: End, expected: End, neighbors: Sequence[Seen]) -> Verdict:
        """Returns the verdict on an end with data. For a swapped end, the verdict is `wrong`."""
        if not neighbors:
            return Verdict.ONE_SIDED if self.tables.heard(expected, end) else Verdict.SILENT
        if len(neighbors) > 1:
            right_ones = [one for one in neighbors if self.names.answers(one, expected)]
            return Verdict.EXTRA if len(right_ones) == 1 else Verdict.DOUBLED
        if not self.names.answers(neighbors[0], expected):
            return Verdict.WRONG
        other = self.tables.ends.get(expected)
        if other is None or self.tables.heard(expected, end):
            return Verdict.RIGHT
        return Verdict.DISAGREES if other.neighbors else Verdict.ONE_SIDED

    def partner(self, end: End, expected: End, neighbor: Seen) -> Optional[End]:
        """Returns the first end that `end` is swapped with, or None. Two ends are swapped if each
        hears only the end that the other wants. `neighbor` is the only neighbor of `end`."""
        ends = (key for key in self.names.ends(neighbor) if key in self.plan.ends)
        others = {self.plan.ends[key].peer for key in ends}
        for host in self.names.hosts_of_aggregate(neighbor):
            others.update(self._with_another.get((host, expected), ()),
                          self._with_another.get((host, expected.host), ()))
        seen = self.tables.ends
        found = [other for other in others - {end, expected}
                 if other in seen and self.has_only(seen[other], expected)
                 and not self.tables.heard(other, self.plan.ends[other].peer)]
        if len(found) > 1:
            found.sort(key=self._ranks.__getitem__)
        return self.plan.ends[found[0]].end if found else None

    @cached_property
    def _ranks(self) -> Mapping[End, int]:
        return {end: rank for rank, end in enumerate(self.plan.ends)}

    @cached_property
    def _with_another(self) -> Mapping[tuple[str, Union[End, str]], Sequence[End]]:
        """Returns the first planned ends with one neighbor, a wrong one, by the host that they want
        and by what they hear: an end, or a host if the neighbor may be any of its ports."""
        found: dict[tuple[str, Union[End, str]], list[End]] = defaultdict(list)
        for end, planned in self.plan.ends.items():
            known, expected = self.tables.ends.get(end), planned.peer
            if known is None or len(known.neighbors) != 1 or self.has_only(known, expected):
                continue
            neighbor = known.neighbors[0]
            heard: set[Union[End, str]] = {*self.names.ends(neighbor),
                                           *self.names.hosts_of_aggregate(neighbor)}
            for one in heard:
                some = found[expected.host, one]
                if len(some) < MOST_TRIED:
                    some.append(end)
        return found
