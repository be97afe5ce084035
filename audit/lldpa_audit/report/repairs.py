"""Defines repairs: each fault belongs to one repair, and one repair may mend many faults."""
from functools import cached_property
from typing import Iterable, Iterator, NamedTuple, Optional, Sequence

from ..differs import Differences
from ..judging import Finding, Verdict
from ..names import End, Seen, shown
from ..plan import Plan, PlannedEnd
from ..seen.tables import Tables

HAVE_ANOTHER = (Verdict.WRONG, Verdict.SWAPPED)
HAVE_NOBODY = (Verdict.SILENT, Verdict.ONE_SIDED, Verdict.NO_DATA)

TO_DO = {
    "renamed": "correct the name, at the host or in the plan",
    "exchanged": "exchange the two hosts, or their names",
    "turned": "put the lanes of the breakout cable in order",
    "loop": "remove the cable",
    "not broken out": "break out the port",
    "broken out": "undo the breakout of the port",
    "shifted": "move each cable by one port",
    "swapped": "exchange the two cables",
    "wrong": "plug in the right cable",
    "moved": "move the cable to its planned port",
    "silent": "plug in the cable, or enable LLDP at the host",
    "extra": "remove every device except the planned one",
    "doubled": "look for a hub, or for devices with the same name",
    "one-sided": "look for a broken fiber, or a side that does not send",
    "disagrees": "get new data from both ends",
    "no data": "get the host's list of neighbors, or a capture of the port",
    "unplanned": "remove the cable, or add it to the plan",
}


class Repair(NamedTuple):
    """One line of a report: its kind, where to go, what is wrong there, and the faults to mend.
    `place` is shown instead of `end` if it is not empty, as for a whole host or several ports."""

    kind: str
    end: End
    text: str
    mends: Sequence[Finding]
    place: str = ""


class Faults:
    """The faults by their normalized ends, in order. `left` has those that no repair mends yet.
    `seen` maps each wanted end to the first faulty end that hears it."""

    def __init__(self, plan: Plan, tables: Tables, faults: Iterable[Finding]) -> None:
        self.plan = plan
        self.tables = tables
        self.names = tables.names
        self.all = {self.names.end(fault.end): fault for fault in faults}
        self.left = dict(self.all)
        self.differences = Differences(self.names)
        self.seen = self._places_of_expected()

    @cached_property
    def _beside(self) -> dict[End, End]:
        """The unplanned ports, by their ends without case, domain and spelling."""
        beside = [self.tables.ends[key].end for key in self.tables.beside(self.plan)]
        return {self.differences.loosest(end): end for end in beside}

    def _places_of_expected(self) -> dict[End, End]:
        faults = self.all.values()
        expected = {self.names.end(fault.expected) for fault in faults if fault.expected}
        places: dict[End, End] = {}
        for fault in faults:
            for neighbor in fault.has:
                for end in expected.intersection(self.names.ends(neighbor)):
                    places.setdefault(end, fault.end)
        return places

    def __iter__(self) -> Iterator[tuple[End, Finding]]:
        return iter(list(self.left.items()))

    def take(self, keys: Iterable[End]) -> list[Finding]:
        """Removes the faults at these ends from `left`, and returns them."""
        return [self.left.pop(key) for key in keys if key in self.left]

    def written(self, key: End) -> End:
        """Returns an end as the plan writes it, or as it is seen if it is not planned."""
        planned, known = self.plan.ends.get(key), self.tables.ends.get(key)
        return planned.end if planned else known.end if known else self.left[key].end

    def far(self, key: End) -> Optional[End]:
        """Returns the other end of an end's planned link, or None if the end is not planned."""
        planned = self.plan.ends.get(key)
        return planned.peer if planned else None

    def with_far(self, keys: Iterable[End], verdicts: Sequence[Verdict]) -> list[End]:
        """Returns these ends, and each far end of their links that has one of these verdicts."""
        ends = list(keys)
        for key in list(ends):
            far = self.far(key)
            if far is not None and far in self.left and self.left[far].verdict in verdicts:
                ends.append(far)
        return ends

    def only(self, fault: Finding) -> Optional[Seen]:
        """Returns the only neighbor of an end, if that is not the wanted one."""
        return fault.has[0] if fault.verdict in HAVE_ANOTHER and len(fault.has) == 1 else None

    def meant(self, fault: Finding) -> Optional[End]:
        """Returns the planned end that wants the only neighbor of a faulty end."""
        neighbor = self.only(fault)
        planned = self.planned(neighbor) if neighbor is not None else None
        return self.names.end(planned.expected) if planned else None

    def planned(self, neighbor: Seen) -> Optional[PlannedEnd]:
        """Returns the planned end that a neighbor may be, or None if there is not exactly one."""
        ends = {key for key in self.names.ends(neighbor) if key in self.plan.ends}
        return self.plan.ends[ends.pop()] if len(ends) == 1 else None

    def place(self, end: End) -> str:
        """Returns an end as a line names it: only the port if its host is the only audited one."""
        is_ours = len(self.tables.hosts) == 1 and self.names.host(end.host) in self.tables.hosts
        return shown(end.port) if is_ours else str(end)

    def reason(self, end: End) -> str:
        """Returns why nothing is known of an end, or an empty text."""
        return self.tables.reason(self.names.end(end)) or self.like(end)

    def like(self, end: End) -> str:
        """Returns a note on an unplanned port with nearly this end's name, or an empty text."""
        like = self._beside.get(self.differences.loosest(end))
        differs = self.differences.of_ends(like, end) if like else None
        return f"there is a port {self.place(like)}: {differs}" if like and differs else ""
