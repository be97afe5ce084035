"""Finds exchanged cables, so that an exchange that both sides see is reported in one line."""
from typing import NamedTuple, Optional

from ..judging import Verdict
from ..names import End
from .repairs import HAVE_ANOTHER, Faults

Pair = tuple[End, End]


class Exchanges(NamedTuple):
    """`line_at` maps each end of an exchange to the end whose line reports the exchange. `others`
    maps an end to the other side's pair of ends, if exchanging these would also mend the fault."""

    line_at: dict[End, End]
    others: dict[End, Pair]


def exchanges_of(faults: Faults) -> Exchanges:
    """Returns the exchanges among faults: pairs of ends that are swapped with each other. An
    exchange also includes the far end of either link, if this hears the wrong end of the pair."""
    found = Exchanges({}, {})
    ranks = {key: rank for rank, key in enumerate(faults.all)}
    for key in faults.all:
        twin = twin_of(faults, key)
        if twin is not None and key not in found.line_at:
            add(found, faults, (key, twin), ranks)
    return found


def add(found: Exchanges, faults: Faults, near: Pair, ranks: dict[End, int]) -> None:
    """Adds the exchange of a pair. If possible, it is reported at a pair of ends of one host."""
    one, other = far_of(faults, *near), far_of(faults, *near[::-1])
    pairs = [near]
    if one is not None and other is not None and twin_of(faults, one) == other:
        pairs.append((one, other))
        found.others.update({key: pairs[key in near] for key in (*near, one, other)})
    place = min(pairs, key=lambda pair: (pair[0].host != pair[1].host,
                                         min(ranks[key] for key in pair)))
    line_at = min(place, key=ranks.__getitem__)
    found.line_at.update({key: line_at for key in (*near, one, other) if key is not None})


def twin_of(faults: Faults, key: End) -> Optional[End]:
    """Returns the end that an end is swapped with, if the two are swapped with each other."""
    fault = faults.all[key]
    twin = faults.names.end(fault.partner) if fault.partner is not None else None
    is_mutual = twin in faults.all and faults.all[twin].partner == fault.end
    return twin if is_mutual else None


def far_of(faults: Faults, key: End, twin: End) -> Optional[End]:
    """Returns the end that `key` wants, if that end hears `twin`, with which `key` is swapped."""
    expected = faults.all[key].expected
    far = faults.names.end(expected) if expected is not None else None
    fault = faults.all.get(far) if far is not None else None
    if far is None or fault is None or fault.verdict not in HAVE_ANOTHER:
        return None
    is_free = fault.verdict is Verdict.WRONG or twin_of(faults, far) is not None
    return far if is_free and faults.names.answers(fault.has[0], twin) else None
