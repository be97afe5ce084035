"""Finds cables that were moved: one end is plugged into a port that is not planned."""
from itertools import chain
from typing import Iterator, Mapping, Sequence

from .breakouts import whole_of_new
from .judging import Finding, Verdict
from .lanes import canonical, wholes_of
from .names import End, Names


def with_moves(findings: Sequence[Finding], beside: Sequence[Finding], names: Names
               ) -> list[Finding]:
    """Returns the findings on planned ends, then those on unplanned ports. The two ends of a moved
    cable are `moved`, and the unplanned port where the cable is has no finding of its own."""
    silent = {names.end(one.expected): one.end for one in findings
              if beside and one.verdict is Verdict.SILENT and one.expected is not None}
    moves = moves_of(findings, beside, names, silent)
    if not moves:
        return [*findings, *beside]
    of_silent = {names.end(silent[expected]): place for expected, place in moves.items()}
    judged = []
    for one in findings:
        place = None
        if one.verdict is Verdict.SILENT:
            place = of_silent.get(names.end(one.end))
        elif one.verdict is Verdict.WRONG:
            place = moves.get(names.end(one.end))
            if place is not None and not names.answers(one.has[0], names.end(place)):
                place = None
        judged.append(one._replace(verdict=Verdict.MOVED, moved_to=place) if place else one)
    places = set(moves.values())
    return judged + [one for one in beside if one.end not in places]


def moves_of(findings: Sequence[Finding], beside: Sequence[Finding], names: Names,
             silent: Mapping[End, End]) -> Mapping[End, End]:
    """Returns the unplanned port where the cable of a silent end is, by the end that this wants.
    `silent` maps each end that a silent end wants to the silent end. No other port hears it."""
    found: dict[End, set[End]] = {}
    loose = names.looser("case", "domain", "spelling")
    places = chain(heard_at(beside, names), hearing(findings, beside, names)) if silent else ()
    for expected, place in places:
        if expected in silent and can_move(expected, silent[expected], place, names, loose):
            found.setdefault(expected, set()).add(place)
    hosts = {expected.host for expected in found}
    for one in chain(findings, beside) if found else ():
        if any(not hosts.isdisjoint(names.hosts_of(neighbor)) for neighbor in one.has):
            for expected in named(one, names) & found.keys():
                found[expected].add(one.end)
    return {expected: places.pop() for expected, places in found.items() if len(places) == 1}


def heard_at(beside: Sequence[Finding], names: Names) -> Iterator[tuple[End, End]]:
    """Yields each planned end that is the only neighbor of an unplanned port, with the port."""
    for one in beside:
        planned = [end for end in named(one, names) if end in names.planned]
        if len(one.has) == len(planned) == 1:
            yield planned[0], one.end


def hearing(findings: Sequence[Finding], beside: Sequence[Finding], names: Names
            ) -> Iterator[tuple[End, End]]:
    """Yields each planned end whose only neighbor is an unplanned port that hears it alone."""
    places = {names.end(one.end): one for one in beside if len(one.has) == 1}
    for one in findings:
        if one.verdict is Verdict.WRONG and len(one.has) == 1:
            key = names.end(one.end)
            heard = [places[end] for end in named(one, names) if end in places]
            if len(heard) == 1 and names.answers(heard[0].has[0], key):
                yield key, heard[0].end


def named(one: Finding, names: Names) -> set[End]:
    """Returns the normalized ends that a port's neighbors may be, by the names of their ports."""
    return {end for neighbor in one.has for end in names.ends(neighbor)}


def can_move(expected: End, silent: End, place: End, names: Names, loose: Names) -> bool:
    """Returns whether a cable can be moved to this port: the port is not the silent one in another
    spelling, as a whole or as a lane, and is of another host than the wanted end."""
    here, there = loose.end(place), loose.end(whole_of_new(silent))
    is_lane = here.host == there.host and (canonical(here.port) in wholes_of(there.port)
                                           or canonical(there.port) in wholes_of(here.port))
    return here != there and not is_lane and names.host(place.host) != expected.host
