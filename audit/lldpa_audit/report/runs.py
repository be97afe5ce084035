"""Finds faults with one cause at several ports of a host: shifted cables, breakouts and loops."""
from collections import Counter
from typing import Iterator, Optional, Sequence

from ..judging import Finding, Verdict
from ..lanes import canonical, wholes_of
from ..names import End, shown
from ..order import by_port
from .repairs import HAVE_ANOTHER, HAVE_NOBODY, Faults, Repair

SHORTEST = 3
FAR = (*HAVE_ANOTHER, *HAVE_NOBODY, Verdict.DISAGREES)
# the host of a lane, and the names that the lane's port may have
Group = tuple[str, frozenset[str]]


def shifted(faults: Faults) -> Iterator[Repair]:
    """Yields a repair for each run of ports that hear what the next (or previous) port wants."""
    counts = Counter(key.host for key, fault in faults if faults.only(fault))
    for host in (host for host, count in counts.items() if count >= SHORTEST):
        ports = sorted(faults.plan.ends_of_hosts.get(host, ()), key=by_port)
        places = {key: place for place, key in enumerate(ports)}
        steps = [step_of(faults, key, places) for key in ports]
        begin = 0
        for end in range(1, len(ports) + 1):
            if end < len(ports) and steps[end] == steps[begin]:
                continue
            if (abs(steps[begin]) == 1 and end - begin >= SHORTEST
                    and all(key in faults.left for key in ports[begin:end])):
                yield repair_of_run(faults, ports, begin, end, steps[begin])
            begin = end


def step_of(faults: Faults, key: End, places: dict[End, int]) -> int:
    """Returns the distance in ports from an end to the end that wants its neighbor, else 0."""
    fault = faults.left.get(key)
    meant = faults.meant(fault) if fault is not None else None
    return places[meant] - places[key] if meant in places else 0


def repair_of_run(faults: Faults, ports: Sequence[End], begin: int, end: int, step: int) -> Repair:
    """Returns the repair of shifted ports, and of the port beside them if it fits the shift."""
    run = list(ports[begin:end])
    behind = end if step > 0 else begin - 1
    if 0 <= behind < len(ports):
        fault = faults.left.get(ports[behind])
        if fault is not None and (fault.verdict in HAVE_NOBODY or faults.meant(fault) in run):
            run.append(ports[behind])
    side = "next port" if step > 0 else "previous port"
    text = f"shifted by one: each has the neighbor that the {side} wants"
    return repair(faults, "shifted", run, text, ports[begin:end])


def turned(faults: Faults) -> Iterator[Repair]:
    """Yields a repair for each port whose lanes are exchanged with one another."""
    for of_port, lanes in lanes_by_port(faults).items():
        wrong = [key for key in lanes if key in faults.left
                 and port_of(faults.meant(faults.left[key])) == of_port]
        if len(wrong) >= SHORTEST:
            wrong.sort(key=by_port)
            yield repair(faults, "turned", wrong, "turned: the lanes of one port are in the wrong "
                         "order", wrong)


def broken_out(faults: Faults) -> Iterator[Repair]:
    """Yields a repair for each port that is broken out and should not be, or the reverse."""
    wholes = {(key.host, canonical(key.port)): key for key, _ in faults}
    for (host, names), lanes in lanes_by_port(faults).items():
        whole = next((wholes[host, name] for name in sorted(names) if (host, name) in wholes), None)
        if whole is None or whole not in faults.left:
            continue
        one, are_planned = faults.left[whole], [key in faults.plan.ends for key in lanes]
        lanes.sort(key=by_port)
        if one.verdict is Verdict.UNPLANNED and all(are_planned):
            text = f"not broken out: the plan has {of_ports(faults, lanes)}"
            yield repair(faults, "not broken out", [whole, *lanes], text, [whole])
        elif one.verdict in HAVE_NOBODY and not any(are_planned):
            text = f"broken out into {of_ports(faults, lanes)}, but planned as one port"
            yield repair(faults, "broken out", [whole, *lanes], text, [whole])


def looped(faults: Faults) -> Iterator[Repair]:
    """Yields a repair for each end that hears its own host."""
    for key, fault in faults:
        other = own_end(faults, key, fault) if key in faults.left else None
        if other is None:
            continue
        name = faults.place(faults.written(other))
        text = "it hears itself" if other == key else f"joined to {name}, of the same host"
        ends = faults.with_far([key, other], HAVE_NOBODY)
        yield Repair("loop", fault.end, f"a loop: {text}", faults.take(dict.fromkeys(ends)))


def own_end(faults: Faults, key: End, fault: Finding) -> Optional[End]:
    """Returns the end of the same host that an end hears as its only neighbor."""
    if len(fault.has) != 1 or fault.verdict not in (*HAVE_ANOTHER, Verdict.UNPLANNED):
        return None
    ends = [end for end in faults.names.ends(fault.has[0]) if end.host == key.host]
    return next((end for end in ends if end in faults.tables.ends or end in faults.plan.ends), None)


def repair(faults: Faults, kind: str, keys: Sequence[End], text: str, places: Sequence[End]
           ) -> Repair:
    """Returns a repair of several ports of one host, and of the other ends of their links."""
    first = faults.left[places[0]].end
    host = "" if len(faults.tables.hosts) == 1 else f"{shown(first.host)} "
    ends = faults.with_far(keys, FAR)
    place = f"{host}{of_ports(faults, places)}"
    return Repair(kind, first, text, faults.take(dict.fromkeys(ends)), place)


def of_ports(faults: Faults, keys: Sequence[End]) -> str:
    """Returns the names of the first and the last of some ports."""
    names = [shown(faults.written(key).port) for key in (keys[0], keys[-1])]
    return names[0] if len(keys) == 1 else f"{names[0]} to {names[1]}"


def lanes_by_port(faults: Faults) -> dict[Group, list[End]]:
    """Returns for each port the faulty ends that are named like its lanes."""
    found: dict[Group, list[End]] = {}
    for key, _ in faults:
        of_port = port_of(key)
        if of_port is not None:
            found.setdefault(of_port, []).append(key)
    return found


def port_of(lane: Optional[End]) -> Optional[Group]:
    """Returns the port that a lane belongs to, or None if the name is not that of a lane."""
    names = wholes_of(lane.port) if lane is not None else frozenset()
    return (lane.host, names) if lane is not None and names else None
