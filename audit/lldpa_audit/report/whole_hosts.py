"""Finds faults of whole hosts: no data, silence, a name that two hosts have."""
from typing import Container, Iterator, Sequence

from ..differs import with_options
from ..judging import Finding, Verdict
from ..names import MOST_NAMED, End, shown
from ..spelling import plain_chassis
from .repairs import Faults, Repair
from .texts import listed

FEWEST = 2


def without_data(faults: Faults) -> Iterator[Repair]:
    """Yields a repair for each host if all or many of its ports lack data for the same reason."""
    ports: dict[str, list[End]] = {}
    for key, fault in faults:
        reason = faults.tables.reason(End(key.host, ""))
        if reason and fault.verdict is Verdict.NO_DATA and faults.reason(fault.end) == reason:
            ports.setdefault(key.host, []).append(key)
    for host, keys in ports.items():
        count = len(faults.plan.ends_of_hosts[host])
        if len(keys) >= FEWEST and (len(keys) == count or len(keys) > MOST_NAMED):
            first = faults.left[keys[0]].end
            text = f"no data at {len(keys)} of {count} ports ({faults.reason(first)})"
            yield Repair("no data", first, text, faults.take(keys), shown(first.host))


def silent(faults: Faults) -> Iterator[Repair]:
    """Yields a repair for each host that has several links, all of them silent. Hosts with the most
    links come first: if a switch is down, the servers at it need no line."""
    hosts = {end.host for key, fault in faults if fault.verdict is Verdict.SILENT
             for end in (key, faults.plan.ends[key].peer)}
    links = {host: silent_links(faults, host) for host in hosts}
    for host in sorted(links, key=lambda one: (-len(links[one]), one)):
        keys = [key for ends in links[host] for key in ends]
        if len(links[host]) >= FEWEST and all(key in faults.left for key in keys):
            end = faults.plan.ends[faults.plan.ends_of_hosts[host][0]].end
            text = f"silent at all {len(links[host])} links that were looked at"
            like = next(filter(None, (faults.like(faults.left[key].end) for key in keys)), "")
            yield Repair("silent", end, f"{text} ({with_options(like)})" if like else text,
                         faults.take(keys), shown(end.host))


def silent_links(faults: Faults, host: str) -> Sequence[Sequence[End]]:
    """Returns for each link of a host its ends with data. Returns () if such an end is not silent,
    if a port of the host is seen elsewhere, or if the host is audited and a link has no data."""
    found: list[Sequence[End]] = []
    tables = faults.tables
    for key in faults.plan.ends_of_hosts.get(host, ()):
        ends = [end for end in (key, faults.far(key)) if end is not None and end in tables.ends]
        left = [faults.left.get(end) for end in ends]
        are_silent = all(one is not None and one.verdict is Verdict.SILENT for one in left)
        if key in faults.seen or not are_silent or not ends and host in tables.hosts:
            return ()
        if ends:
            found.append(ends)
    return found


def of_one_name(faults: Faults) -> Iterator[Repair]:
    """Yields a repair for each planned name that hosts of several domains have."""
    ends: dict[str, list[End]] = {}
    for key, fault in faults:
        far = faults.far(key)
        if fault.verdict is Verdict.DOUBLED and len(fault.has) == 1 and far is not None:
            ends.setdefault(far.host, []).append(key)
    for host, keys in ends.items():
        places: dict[str, End] = {}
        for key in keys:
            name = faults.names.heeded_hosts(faults.left[key].has[0])[0]
            places.setdefault(shown(name), faults.left[key].end)
        text = ", ".join(f"{name} at {end}" for name, end in places.items())
        name = faults.plan.hosts[host]
        yield Repair("doubled", End(name, keys[0].port), f"doubled: seen as {text}",
                     faults.take(keys), shown(name))


def several_chassis(findings: Sequence[Finding], hosts: Container[str]) -> Iterator[str]:
    """Yields a note on those of the hosts that have several chassis IDs at right links, not only
    several spellings of one: two devices may have the same name, or each card of a server may
    send its own ID."""
    unified: dict[str, dict[str, tuple[str, End]]] = {}
    for one in findings if hosts else ():
        if one.verdict is Verdict.RIGHT and one.expected is not None and one.expected.host in hosts:
            chassis = one.has[0].chassis
            if chassis:
                unified.setdefault(one.expected.host, {})[plain_chassis(chassis)] = chassis, one.end
    several = [host for host, some in unified.items() if len(some) > 1]
    for host in several[:1]:
        some = list(unified[host].values())
        ids = [f"{shown(chassis)} at {end}" for chassis, end in some[:MOST_NAMED]]
        text = f"{len(some)} chassis IDs ({listed(ids, len(some) - len(ids))})"
        more = f"; in all, {len(several)} hosts have several chassis IDs" if several[1:] else ""
        yield f"{shown(host)} is heard with {text}: two devices may have the same name{more}"
