"""Counts the cables that are right, wrong, known, not looked at, and not judged."""
from collections import Counter
from typing import Mapping, NamedTuple, Optional, Sequence

from ..ages import Ages, ages_of
from ..judging import Finding, Verdict
from ..names import End, first_of
from ..order import natural
from ..plan import Plan
from ..seen.tables import Tables

RIGHT, WRONG, KNOWN, NOT_LOOKED_AT, NOT_JUDGED = (
    "right", "wrong", "known", "not looked at", "not judged")
# the verdicts that do not make a cable wrong
NO_FAULTS = (Verdict.NO_DATA, Verdict.NOT_LOOKED_AT, Verdict.KNOWN)


class Count(NamedTuple):
    """How many cables are in each state, how many of the right ones are so by weaker names alone,
    how many ports are unplanned, and how many ends need a repair or new data. `hosts` has the
    hosts without a source, sorted by how many of their cables nobody looked at, most first."""

    cables: Mapping[str, int]
    by: Mapping[str, int]
    unplanned: int
    faults: int
    without_data: int
    hosts: Sequence[str]
    ages: Ages

    def __str__(self) -> str:
        cables = "cable" if self.planned == 1 else "cables"
        hosts = f" ({', '.join(first_of(self.hosts))})" if self.hosts else ""
        numbers = {RIGHT: self.cables[RIGHT] - sum(self.by.values()),
                   **{f"{RIGHT} by {name}": number for name, number in self.by.items()}}
        numbers = {**numbers, **self.cables, RIGHT: numbers[RIGHT]}
        states = [f"{number} {state}{hosts if state == NOT_LOOKED_AT else ''}"
                  for state, number in numbers.items() if number or state in (RIGHT, WRONG)]
        texts = [f"{self.planned} {cables}: {', '.join(states)}"]
        if self.unplanned:
            texts.append(f"{self.unplanned} unplanned port{'' if self.unplanned == 1 else 's'}")
        return "; ".join([*texts, f"sources {self.ages}"])

    @property
    def planned(self) -> int:
        return sum(self.cables.values())

    def is_complete(self, is_partial: bool) -> bool:
        """Returns whether each cable was judged or, if `is_partial`, each that was looked at."""
        left = self.cables[NOT_LOOKED_AT] + self.cables[NOT_JUDGED]
        return not self.without_data and (is_partial or not left)


def count(findings: Sequence[Finding], plan: Plan, tables: Tables) -> Count:
    """Counts the cables by the findings on their ends."""
    names = tables.names
    others = {names.end(one.end): one for one in findings if one.verdict is not Verdict.RIGHT}
    cables = dict.fromkeys((RIGHT, WRONG, KNOWN, NOT_LOOKED_AT), 0)
    hosts: Counter[str] = Counter()
    for key, one in others.items():
        far_key = names.end(one.expected) if one.expected else None
        if far_key is None or (far_key in others and far_key < key):
            continue  # not planned, or counted at its other end
        state = state_of(one, others.get(far_key))
        cables[state] += 1
        if state == NOT_LOOKED_AT:
            hosts.update(end.host for end in (key, far_key) if end.host not in tables.hosts)
    cables[RIGHT] += len(plan.ends) // 2 - sum(cables.values())
    cables[NOT_JUDGED] = plan.not_judged
    verdicts = Counter(one.verdict for one in others.values())
    faults = sum(verdicts.values()) - sum(verdicts[one] for one in NO_FAULTS)
    unseen = sorted(hosts, key=lambda host: (-hosts[host], natural(host)))
    return Count(cables, by_weaker_names(findings, others, tables), verdicts[Verdict.UNPLANNED],
                 faults, verdicts[Verdict.NO_DATA], [plan.hosts[host] for host in unseen],
                 ages_of(tables.times))


def by_weaker_names(findings: Sequence[Finding], others: Mapping[End, Finding], tables: Tables
                    ) -> Mapping[str, int]:
    """Counts the right cables neither end of which is right by the strongest names. `others` has
    the findings that are not right."""
    names, counts = tables.names, Counter[str]()
    weak = {names.end(one.end): one for one in findings if one.by and one.verdict is Verdict.RIGHT}
    for key, one in weak.items():
        far = names.end(one.expected) if one.expected is not None else key
        is_alone = far.host not in tables.hosts if far not in others else (
            others[far].verdict is Verdict.NO_DATA)
        if key < far if far in weak else is_alone:
            counts[one.by] += 1
    return counts


def state_of(one: Finding, far: Optional[Finding]) -> str:
    """Returns the state of a cable from its one or two findings that are not right."""
    verdicts = [one.verdict, far.verdict if far is not None else one.verdict]
    if any(verdict not in NO_FAULTS for verdict in verdicts):
        return WRONG
    if Verdict.KNOWN in verdicts:
        return KNOWN
    return RIGHT if far is None else NOT_LOOKED_AT
