"""Says in words what is wrong at an end."""
from typing import Optional, Sequence

from ..judging import Finding, Verdict
from ..names import MOST_NAMED, End, Seen, shown
from .exchanges import exchanges_of
from .repairs import Faults


class FaultTexts:
    """Says what is wrong at each end with a fault."""

    def __init__(self, faults: Faults) -> None:
        self.names = faults.names
        self.faults = faults
        self.exchanges = exchanges_of(faults)

    def text(self, fault: Finding) -> str:
        """Returns the verdict on an end in words, or an empty text if nothing is wrong."""
        text = self._text(fault)
        return f"{text} (by {fault.by})" if fault.by and text else text

    def _text(self, fault: Finding) -> str:
        if fault.verdict is Verdict.KNOWN:
            return f"known: {shown(fault.reason)}"
        if fault.verdict is Verdict.NOT_LOOKED_AT:
            return f"not looked at: wants {fault.expected}"
        if fault.verdict is Verdict.RIGHT:
            return ""
        if fault.expected is None:
            return f"unplanned: has {self.neighbors(fault)}"
        if fault.moved_to is not None:
            end, place = (fault.end, fault.expected) if fault.has else (fault.expected, fault.end)
            return (f"moved: {self.faults.place(end)} is at {self.faults.place(fault.moved_to)}, "
                    f"wants {self.faults.place(place)}")
        if fault.verdict is Verdict.EXTRA:
            return f"extra: {self.neighbors(fault)} besides {fault.expected}"
        if fault.verdict is Verdict.ONE_SIDED:
            return (f"one-sided: hears {fault.expected}, is not heard there" if fault.has else
                    f"one-sided: is heard by {fault.expected}, hears nobody")
        if fault.verdict is Verdict.DISAGREES:
            return f"disagrees: hears {fault.expected}, which hears somebody else"
        if fault.partner is not None:
            return f"swapped with {self.swapped(fault, fault.partner)}"
        text = f"{fault.verdict.value}: wants {self.expected(fault.end, fault.expected)}"
        if fault.has:
            text += f", has {self.neighbors(fault)}"
        reason = self.reason(fault)
        return f"{text} ({reason})" if reason else text

    def of_link(self, fault: Finding, other: Optional[Finding]) -> str:
        """Returns what is wrong at an end, and what the other end has if that adds something."""
        text = self.text(fault)
        are_alike = other is not None and fault.verdict is other.verdict
        if other is None or are_alike and other.verdict in (Verdict.ONE_SIDED, Verdict.SILENT,
                                                            Verdict.MOVED):
            return text
        at = self.faults.place(other.end)
        if other.verdict is Verdict.DISAGREES:
            return f"{text}; {at} hears it"
        if other.verdict is Verdict.NO_DATA:
            return f"{text}; nothing is known of {at}"
        return f"{text}; {at} has {self.neighbors(other)}" if other.has else (
            f"{text}; {at} hears nobody")

    def swapped(self, fault: Finding, partner: End) -> str:
        """Returns which end an end is swapped with, and any other exchange that mends the fault."""
        has = self.faults.plan.ends[self.names.end(partner)].expected
        text = f"{self.faults.place(partner)}: wants {fault.expected}, has {has}"
        other = self.exchanges.others.get(self.names.end(fault.end))
        if other is None:
            return text
        one, twin = [self.faults.all[key].end for key in other]
        return f"{text} (or exchange {one} with {twin} instead)"

    def expected(self, end: End, expected: End) -> str:
        """Returns which end is expected and, if it is seen at another end, where."""
        place = self.faults.seen.get(self.names.end(expected))
        if place is None or place == end:
            return str(expected)
        return f"{expected} (seen at {self.faults.place(place)})"

    def reason(self, fault: Finding) -> str:
        """Returns why an end has no data or no neighbor, or an empty text if this is not known."""
        if fault.verdict is Verdict.NO_DATA:
            return self.faults.reason(fault.end)
        if fault.verdict is not Verdict.SILENT:
            return ""
        twin = self.faults.all.get(self.names.end(fault.expected)) if fault.expected else None
        is_twin = twin is not None and twin.verdict is Verdict.SILENT
        return self.faults.like(fault.end) or ("which is silent, too" if is_twin else "")

    def neighbors(self, fault: Finding) -> str:
        """Returns the neighbors of an end, but only the extra ones for the verdict `extra`."""
        has = fault.has
        if fault.verdict is Verdict.EXTRA and fault.expected is not None:
            expected = self.names.end(fault.expected)
            has = [neighbor for neighbor in has if not self.names.answers(neighbor, expected)]
        texts = [self.neighbor(one, fault.end, fault.expected) for one in has[:MOST_NAMED]]
        if len(set(texts)) < len(texts):
            texts = [f"{text} (chassis {shown(one.chassis)}, port {shown(one.port_id)})"
                     for text, one in zip(texts, has)]
        return listed(texts, len(has) - len(texts))

    def neighbor(self, neighbor: Seen, end: End, expected: Optional[End]) -> str:
        """Returns which neighbor an end has, and where it is planned or how its name differs."""
        differs = self.faults.differences.of_neighbor(neighbor, expected) if expected else None
        if differs:
            return f"{neighbor} ({differs})"
        planned = self.faults.planned(neighbor)
        if planned is None:
            return str(neighbor)
        is_here = self.names.end(planned.expected) == self.names.end(end)
        return str(planned.end) if is_here else (
            f"{planned.end} (planned at {self.faults.place(planned.expected)})")


def listed(texts: Sequence[str], more: int) -> str:
    """Joins texts by commas and `and`, and adds how many more there are."""
    texts = [*texts, f"{more} more"] if more else texts
    return " and ".join(filter(None, [", ".join(texts[:-1]), texts[-1]]))
