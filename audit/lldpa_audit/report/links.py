"""Makes the repairs of exchanged cables, of single links, and of unplanned ports."""
from typing import Iterator, Sequence

from ..judging import Finding, Verdict
from ..names import End
from .repairs import Faults, Repair
from .texts import FaultTexts

# of the two ends of a link, the one whose verdict comes first here is reported first
RANKS = (Verdict.MOVED, Verdict.WRONG, Verdict.SWAPPED, Verdict.DOUBLED, Verdict.EXTRA,
         Verdict.NO_DATA, Verdict.ONE_SIDED, Verdict.SILENT, Verdict.DISAGREES)


def of_exchanges(faults: Faults, texts: FaultTexts) -> Iterator[Repair]:
    """Yields a repair for each pair of exchanged cables."""
    members: dict[End, list[End]] = {}
    for key, _ in faults:
        line_at = texts.exchanges.line_at.get(key)
        if line_at is not None:
            members.setdefault(line_at, []).append(key)
    for line_at, keys in members.items():
        fault = faults.left.get(line_at)
        if fault is not None:
            ends = faults.with_far(keys, [Verdict.DISAGREES])
            yield Repair("swapped", fault.end, texts.text(fault), faults.take(ends))


def of_links(faults: Faults, texts: FaultTexts) -> Iterator[Repair]:
    """Yields a repair for each planned link that has a fault."""
    for key, fault in faults:
        if key not in faults.left or fault.verdict is Verdict.UNPLANNED:
            continue
        far = faults.far(key)
        ends = [key] if far is None or far not in faults.left else [key, far]
        ends.sort(key=lambda end: rank_of(faults.left[end]))
        moved = ports_beside(faults, ends)
        mends = faults.take(ends)
        text = texts.of_link(mends[0], mends[1] if len(mends) > 1 else None)
        yield Repair(mends[0].verdict.value, mends[0].end, text, [*mends, *faults.take(moved)])


def rank_of(fault: Finding) -> tuple[int, bool]:
    """Returns the rank of an end in its link: the worse verdict comes first. Of equal verdicts, an
    end that hears somebody does, but of a moved cable the end where it is missing."""
    is_moved = fault.verdict is Verdict.MOVED
    return RANKS.index(fault.verdict), bool(fault.has) is is_moved


def ports_beside(faults: Faults, ends: Sequence[End]) -> list[End]:
    """Returns the unplanned ports that hear one of these ends of a link, or are heard by it."""
    found: dict[End, None] = {}
    for end in ends:
        place, neighbor = faults.seen.get(end), faults.only(faults.left[end])
        keys = [*faults.names.ends(neighbor)] if neighbor is not None else []
        keys += [faults.names.end(place)] if place is not None else []
        found.update((key, None) for key in keys if key in faults.left
                     and faults.left[key].verdict is Verdict.UNPLANNED)
    return list(found)


def of_ports(faults: Faults, texts: FaultTexts) -> Iterator[Repair]:
    """Yields a repair for each unplanned port, together with the port that it is joined to."""
    for key, fault in faults:
        if key in faults.left:
            there = [end for one in fault.has for end in faults.names.ends(one)
                     if end in faults.left and len(faults.left[end].has) == 1]
            yield Repair(fault.verdict.value, fault.end, texts.text(fault),
                         faults.take(dict.fromkeys([key, *there])))
