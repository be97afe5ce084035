"""Finds hosts that announce another name than the planned one, and reports each in one line."""
from typing import Iterator, Mapping, Sequence

from ..differs import with_options
from ..judging import Verdict
from ..names import End, Seen, shown
from .repairs import HAVE_ANOTHER, Faults, Repair

FEWEST = 2


def exchanged(faults: Faults) -> Iterator[Repair]:
    """Yields a repair for each pair of hosts that have each other's names at all their links."""
    heard = other_names(faults)
    for host, by_name in heard.items():
        other = next(iter(by_name))
        if (host < other and all(len(heard.get(one, ())) == 1 for one in (host, other))
                and next(iter(heard[other])) == host
                and not any(is_heard_rightly(faults, one) for one in (host, other))):
            some = [end for one, name in ((host, other), (other, host))
                    for end, _ in heard[one][name]]
            if len(some) >= 2 * FEWEST:
                yield exchange(faults, host, other, some)


def exchange(faults: Faults, host: str, other: str, some: Sequence[End]) -> Repair:
    """Returns the repair of two exchanged hosts, from the ends of both."""
    names = [shown(faults.plan.hosts[one]) for one in (host, other)]
    counts = [sum(end.host == one for end in some) for one in (host, other)]
    ends = [far for end in some for far in (faults.far(end), end) if far is not None]
    text = (f"exchanged with {names[1]}: each is seen at links planned for the other "
            f"({counts[0]} for {names[0]}, {counts[1]} for {names[1]})")
    return Repair("exchanged", End(faults.plan.hosts[host], some[0].port), text,
                  faults.take(ends), names[0])


def renamed(faults: Faults) -> Iterator[Repair]:
    """Yields a repair for each planned host heard under another name, and never under its own."""
    for host, by_name in other_names(faults).items():
        some = max(by_name.values(), key=len)
        own = [faults.left[end] for end, _ in some if end in faults.left]
        is_miswired = any(fault.verdict in HAVE_ANOTHER for fault in own)  # its cables are wrong
        if len(some) >= FEWEST and not is_heard_rightly(faults, host) and not is_miswired:
            yield repair(faults, host, some)


def other_names(faults: Faults) -> Mapping[str, Mapping[str, Sequence[tuple[End, Seen]]]]:
    """Returns for each planned host the wrong names that are heard in its place. Each name maps to
    wanted ends of the host, each with the neighbor that has this name and the wanted port."""
    heard: dict[str, dict[str, list[tuple[End, Seen]]]] = {}
    for key, fault in faults:
        neighbor, expected = faults.only(fault), faults.far(key)
        if neighbor is None or expected is None or not has_port(faults, neighbor, expected):
            continue
        name = faults.names.host(neighbor.hosts[0])
        heard.setdefault(expected.host, {}).setdefault(name, []).append((expected, neighbor))
    return heard


def has_port(faults: Faults, neighbor: Seen, expected: End) -> bool:
    """Returns whether a neighbor is of another host, but may have the wanted port."""
    names = faults.names
    hosts = names.hosts_of(neighbor)
    return bool(hosts) and expected.host not in hosts and (
        names.is_any_member(neighbor, hosts[0])
        or any(expected.port in names.ports(hosts[0], port) for port in names.heeded(neighbor)))


def is_heard_rightly(faults: Faults, host: str) -> bool:
    """Returns whether a host is heard under its planned name at one of its links."""
    plan = faults.plan
    return any(faults.tables.heard(plan.ends[key].peer, key)
               for key in plan.ends_of_hosts.get(host, ()))


def repair(faults: Faults, host: str, some: Sequence[tuple[End, Seen]]) -> Repair:
    """Returns the repair of a host that is heard under another name at these ends."""
    name, neighbor = faults.plan.hosts[host], some[0][1]
    differs = faults.differences.of_neighbor(neighbor, some[0][0])
    count = sum(bool(faults.tables.neighbors(faults.plan.ends[key].peer))
                for key in faults.plan.ends_of_hosts[host])
    at = f"all {len(some)}" if len(some) == count else f"{len(some)} of {count}"
    text = f"is heard as {shown(neighbor.hosts[0])} at {at} links whose other end hears a neighbor"
    ends = faults.with_far([faults.plan.ends[end].peer for end, _ in some], [Verdict.DISAGREES])
    if differs:
        text = f"{text} ({with_options(differs)})"
    return Repair("renamed", End(name, some[0][0].port), text, faults.take(ends), shown(name))
