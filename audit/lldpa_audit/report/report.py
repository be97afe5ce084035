"""Makes the report of an audit: its lines, and the data for its JSON, its page and other files."""
from typing import Iterator, Sequence

from lldpa.texts import printable

from ..judging import Finding, Verdict
from ..names import End
from ..order import in_order
from ..plan import NOT_PLANNED, Plan, PlannedEnd
from ..seen.tables import Tables
from .count import count
from .links import of_exchanges, of_links, of_ports
from .renames import exchanged, renamed
from .repairs import Faults, Repair
from .runs import broken_out, looped, shifted, turned
from .texts import FaultTexts
from .whole_hosts import of_one_name, silent, without_data

# longer places are not padded
WIDEST = 48
# how many further columns of the plan a line shows, and how long their texts may be
MOST_DETAILS, LONGEST_DETAIL = 4, 40
NO_FAULTS = (Verdict.RIGHT, Verdict.KNOWN, Verdict.NOT_LOOKED_AT)


class Report:
    """What an audit has found. `reported` has the findings to report, sorted by host and port, and
    `repairs` their repairs."""

    def __init__(self, plan: Plan, tables: Tables, findings: Sequence[Finding]) -> None:
        self.plan = plan
        self.names = tables.names
        self.findings = findings
        self.reported = list(in_order(one for one in findings if one.verdict not in NO_FAULTS))
        self.faults = Faults(plan, tables, self.reported)
        self.texts = FaultTexts(self.faults)
        self.repairs = list(in_order(self._repairs()))
        self.repair_of = {self.names.end(fault.end): number
                          for number, repair in enumerate(self.repairs, 1)
                          for fault in repair.mends}
        self.count = count(findings, plan, tables)

    def _repairs(self) -> Iterator[Repair]:
        """Yields the repairs: those of many ends before those of one port."""
        for find in (exchanged, renamed, turned, looped, broken_out, shifted, without_data, silent,
                     of_one_name):
            yield from find(self.faults)
        for find_more in (of_exchanges, of_links, of_ports):
            yield from find_more(self.faults, self.texts)

    def lines(self) -> list[str]:
        """Returns a line for each repair, and the count."""
        places = [self.place(one) for one in self.repairs]
        width = max((len(place) for place in places if len(place) <= WIDEST), default=0)
        return [*(f"{place:{width}}  {one.text}{self._details(one)}"
                  for place, one in zip(places, self.repairs)), str(self.count)]

    def place(self, repair: Repair) -> str:
        """Returns where a repair begins, as its line shows it."""
        return repair.place or self.faults.place(repair.end)

    def _details(self, repair: Repair) -> str:
        """Returns the further columns and the path of a repair's cable, in brackets."""
        planned = NOT_PLANNED if repair.place else self.planned(repair.end)
        texts = [f"{name} {value}" for name, value in self.plan.details(planned)
                 if len(value) <= LONGEST_DETAIL][:MOST_DETAILS]
        if planned.detail.path:
            texts.append(f"through {', '.join(map(str, planned.detail.path))}")
        return f" [{printable(', '.join(texts))}]" if texts else ""

    def planned(self, end: End) -> PlannedEnd:
        """Returns what the plan says of an end."""
        return self.plan.ends.get(self.names.end(end), NOT_PLANNED)

    def links_of(self, repair: Repair) -> int:
        """Returns how many planned links a repair mends."""
        ends = [self.planned(fault.end) for fault in repair.mends]
        return len({frozenset(planned[:2]) for planned in ends if planned is not NOT_PLANNED})

    def in_order(self) -> Iterator[Finding]:
        return in_order(self.findings)
