"""A slow judge of cabling, which applies the definitions of audit/README.md one after the other.

Of lldpa_audit it uses only the types End and Seen. It searches whole lists each time.
"""
import re
from typing import Dict, List, Optional, Sequence, Tuple

from lldpa_audit.names import End, Seen


class SlowJudge:
    """Judges the ends of a plan by the audited hosts and the known ports with their neighbors."""

    def __init__(self, pairs: Sequence[Tuple[End, End]], audited: List[str],
                 known: Dict[End, List[Seen]], rules: Sequence[bool]) -> None:
        self.wants = {one: other for pair in pairs for one, other in (pair, pair[::-1])}
        self.audited = audited
        self.known = known
        self.counting: Dict[Seen, Sequence[str]] = {}
        self.ignore_case, self.short_names, self.vendor_names = rules

    def same_text(self, one: str, other: str) -> bool:
        return one.lower() == other.lower() if self.ignore_case else one == other

    def same_host(self, one: str, other: str) -> bool:
        (short, domain), (its_short, its_domain) = parts(one), parts(other)
        if self.short_names and self.same_text(short, its_short):
            return "" in (domain, its_domain) or self.same_text(domain, its_domain)
        return self.same_text(one, other)

    def same_port(self, one: str, other: str) -> bool:
        is_same = self.vendor_names and {one, other} <= {"Et1", "Ethernet1"}
        return is_same or self.same_text(one, other)

    def same_end(self, one: End, other: End) -> bool:
        return self.same_host(one.host, other.host) and self.same_port(one.port, other.port)

    def is_one_of(self, hosts: Sequence[str], host: str) -> bool:
        return any(self.same_host(one, host) for one in hosts)

    def hosts(self, neighbor: Seen) -> Sequence[str]:
        """Returns the names of a neighbor's host that count: the first one that is planned, or
        all."""
        if neighbor not in self.counting:
            planned = [name for name in neighbor.hosts
                       if any(self.same_host(name, one.host) for one in self.wants)]
            self.counting[neighbor] = planned[:1] or neighbor.hosts
        return self.counting[neighbor]

    def heeded(self, neighbor: Seen) -> Sequence[str]:
        """Returns the names of a neighbor's port that count."""
        is_planned = any(self.same_port(neighbor.port_id, planned.port)
                         and (neighbor.is_named or self.is_one_of(self.hosts(neighbor),
                                                                  planned.host))
                         for planned in self.wants)
        return (neighbor.port_id,) if is_planned else neighbor.ports

    def is_named(self, neighbor: Seen, end: End) -> bool:
        return self.is_one_of(self.hosts(neighbor), end.host) and any(
            self.same_port(port, end.port) for port in self.heeded(neighbor))

    def by(self, end: End) -> str:
        """Returns by which weaker names an end hears the end that it wants, if it does."""
        wanted, words = self.wants[end], []
        for one in self.neighbors(end) or []:
            if self.answers(one, wanted):
                name = self.hosts(one)[0]
                if name != one.hosts[0]:
                    words.append("chassis ID" if name == one.chassis else "address")
                if one.port_id and not self.same_port(one.port_id, wanted.port):
                    words.append("description" if self.is_named(one, wanted) else "aggregate")
                break
        return " and ".join(words)

    def answers(self, neighbor: Seen, end: End) -> bool:
        is_any_member = (self.vendor_names and neighbor.aggregated
                         and "bond0" in self.heeded(neighbor))
        return self.is_named(neighbor, end) or (
            is_any_member and self.is_one_of(self.hosts(neighbor), end.host))

    def neighbors(self, end: End) -> Optional[List[Seen]]:
        """Returns the neighbors of an end, or None if the end is not among the known ports."""
        return next((some for port, some in self.known.items() if self.same_end(port, end)), None)

    def answering(self, end: End, other: End) -> int:
        """Returns how many neighbors of `end` match the end `other`."""
        return sum(self.answers(one, other) for one in self.neighbors(end) or [])

    def has_one(self, end: End, answering: int) -> bool:
        """True if an end has one neighbor: the wanted one (if `answering` is 1) or another (0)."""
        return (len(self.neighbors(end) or []) == 1
                and self.answering(end, self.wants[end]) == answering)

    def partners(self, end: End) -> List[End]:
        """Returns the ends that this one is swapped with, in the order of the plan."""
        return [other for other in self.wants if self.has_one(end, 0) and self.has_one(other, 0)
                and other not in (end, self.wants[end])
                and self.answering(end, self.wants[other])
                and self.answering(other, self.wants[end])]

    def is_right(self, end: End) -> bool:
        wanted = self.wants[end]
        return self.has_one(end, 1) and (self.neighbors(wanted) is None
                                         or self.answering(wanted, end) > 0)

    def is_of_several_domains(self, end: End) -> bool:
        """Returns whether an end is right, but hosts of several domains have its peer's name."""
        if not self.short_names or not self.is_right(end):
            return False
        heard = [(self.wants[one].host, self.hosts((self.neighbors(one) or [])[0])[0])
                 for one in self.wants if self.is_right(one)]
        domains = {parts(its.lower() if self.ignore_case else its)[1] for host, its in heard
                   if self.same_host(host, self.wants[end].host)}
        return len(domains - {""}) > 1

    def moved_to(self, end: End) -> Optional[End]:
        """Returns the unplanned port to which the cable of a silent end was moved, or None."""
        wanted = self.wants[end]
        if self.neighbors(end) != [] or self.answering(wanted, end):
            return None
        places = [port for port in self.unplanned() if len(self.known[port]) == 1
                  and (self.is_the_only_name(port, wanted) or self.hear_each_other(port, wanted))
                  and loosest(port) != loosest(end)
                  and not self.same_host(port.host, wanted.host)]
        others = [port for port, some in self.known.items() if port not in places
                  and any(self.is_named(one, wanted) for one in some)]
        return places[0] if len(places) == 1 and not others else None

    def is_the_only_name(self, port: End, wanted: End) -> bool:
        """Returns whether a port's neighbor names this planned end, and no other one."""
        return [one for one in self.wants if self.is_named(self.known[port][0], one)] == [wanted]

    def hear_each_other(self, port: End, end: End) -> bool:
        """Returns whether an unplanned port's neighbor may be an end whose only neighbor names no
        other unplanned port with one neighbor."""
        named = [one for one in self.unplanned() if len(self.known[one]) == 1
                 and self.has_one(end, 0) and self.is_named((self.neighbors(end) or [])[0], one)]
        return named == [port] and self.answers(self.known[port][0], end)

    def is_at_a_moved_cable(self, end: End) -> bool:
        """Returns whether an end hears only the port to which its cable was moved."""
        place = self.moved_to(self.wants[end])
        return self.has_one(end, 0) and place is not None and self.answering(end, place) > 0

    def verdicts(self, end: End) -> List[str]:
        """Returns each verdict whose definition fits; audit/README.md promises exactly one."""
        wanted, neighbors = self.wants[end], self.neighbors(end)
        others, is_seen = self.neighbors(wanted), self.answering(wanted, end) > 0
        if neighbors is None:
            is_looked_at = self.is_one_of(self.audited, end.host) or others is not None
            return ["no data" if is_looked_at else "not looked at"]
        if self.is_of_several_domains(end):
            return ["doubled"]
        number, answering = len(neighbors), self.answering(end, wanted)
        is_moved = self.moved_to(end) is not None or (
            not self.partners(end) and self.is_at_a_moved_cable(end))
        fits = {
            "moved": is_moved,
            "silent": number == 0 and not is_seen and not is_moved,
            "one-sided": is_seen if number == 0 else self.has_one(end, 1) and others == [],
            "right": self.is_right(end),
            "disagrees": self.has_one(end, 1) and bool(others) and not is_seen,
            "swapped": bool(self.partners(end)),
            "wrong": self.has_one(end, 0) and not self.partners(end) and not is_moved,
            "extra": number > 1 and answering == 1,
            "doubled": number > 1 and answering != 1}
        return [verdict for verdict, is_so in fits.items() if is_so]

    def unplanned(self) -> List[End]:
        """Returns the ports that are not planned and have neighbors."""
        return [port for port, neighbors in self.known.items()
                if neighbors and not any(self.same_end(port, end) for end in self.wants)]


def loosest(end: End) -> Tuple[str, str]:
    """Returns an end without regard to case, domain and spelling."""
    return parts(end.host)[0].lower(), end.port.lower().replace("ethernet", "et")


def parts(host: str) -> Tuple[str, str]:
    """Splits a host's name at its first dot, unless it is an IPv4 address or begins with a dot."""
    found = re.fullmatch(r"(?![0-9]+([.][0-9]+){3}$)([^.]+)([.].*)?", host)
    return (found[2], found[3] or "") if found else (host, "")
