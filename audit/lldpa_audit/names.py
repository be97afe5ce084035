"""Compares the names in a plan with those that neighbors announce."""
from __future__ import annotations

import ipaddress
from contextlib import suppress
from typing import Collection, Iterable, Mapping, NamedTuple, Optional, Sequence

from lldpa.texts import CUT, escaped, printable

from .spelling import MAC, is_aggregate, plain, plain_port

LONGEST = 255  # the longest name that LLDP can send
MOST_NAMED = 3  # hosts, ends or neighbors in one line


class End(NamedTuple):
    """A port of a host: one end of a link."""

    host: str
    port: str

    def __str__(self) -> str:
        return f"{shown(self.host)} {shown(self.port)}"


class Seen(NamedTuple):
    """A neighbor: the names of its host and of its port, the best one first. `aggregated`
    is true if it announces that its port is a member of an aggregate. `is_named` is true if its
    Port ID is the name or alias of an interface, and then the first of its port's names."""

    hosts: tuple[str, ...]
    ports: tuple[str, ...]
    chassis: str = ""
    port_id: str = ""
    aggregated: bool = False
    is_named: bool = False

    def __str__(self) -> str:
        if self == NAMELESS:
            return "a neighbor that did not fit in the table"
        return f"{shown(self.hosts[0])} {shown(self.ports[0])}"


# a neighbor for which the table had no room, so nothing is known of it
NAMELESS = Seen((), ())


class Aliases(NamedTuple):
    """`hosts` maps an alias to a host. `ports` maps a host (any host, if empty) and an alias to the
    ports that share the alias. All these names are normalized."""

    hosts: dict[str, str]
    ports: dict[End, tuple[str, ...]]


NO_ALIASES = Aliases({}, {})


class Names:
    """The rules for comparing names, which never change. Two names are the same if their normalized
    forms are equal. `domains` has the domains of planned hosts by short names. Of a neighbor's
    names, the strongest one that is in `planned`, the normalized ends of the plan, counts: people
    write descriptions by hand, and an old name may stay as a chassis ID. Looser rules ask the
    rules `strict` for that."""

    def __init__(self, ignore_case: bool = False, short_names: bool = False,
                 vendor_names: bool = False, aliases: Aliases = NO_ALIASES,
                 domains: Mapping[str, str] = {}, planned: Collection[End] = (),
                 strict: Optional[Names] = None) -> None:
        self._given = ignore_case, short_names, vendor_names
        self.ignore_case, self.short_names, self.vendor_names = self._given
        self.aliases = aliases
        self.domains = domains
        self.planned = planned
        self._planned_hosts = {end.host for end in planned}
        self._planned_ports = {end.port for end in planned}
        self._strict = strict or self
        self._is_strict = not (ignore_case or short_names or vendor_names or any(aliases))
        self._hosts: dict[str, str] = {}
        self._ports: dict[str, str] = {}

    def host(self, name: str) -> str:
        """Returns a host's name, normalized."""
        if self._is_strict:
            return name
        key = self._hosts.get(name)
        if key is None:
            key = self.plain_host(name)
            key = self._hosts[name] = self.aliases.hosts.get(key, key)
        return key

    def hosts_of(self, neighbor: Seen) -> Sequence[str]:
        """Returns the normalized hosts that a neighbor may be, by the names that count."""
        names = self._strict.heeded_hosts(neighbor)
        return names if self._is_strict else [self.host(name) for name in names]

    def heeded_hosts(self, neighbor: Seen) -> Sequence[str]:
        """Returns the names of a neighbor's host that count: only the strongest one that is the
        name of a planned host, or all if none is."""
        planned = self._planned_hosts
        for name in neighbor.hosts:
            if self.host(name) in planned:
                return (name,)
        return neighbor.hosts

    def plain_host(self, name: str) -> str:
        """Returns a host's name, normalized except for aliases."""
        name = self.whole_host(name)
        return self._with_planned_domain(name) if self.short_names else name

    def whole_host(self, name: str) -> str:
        """Returns a host's name, normalized except for its domain and aliases."""
        if self.vendor_names:
            name = plain(name)
        return name.casefold() if self.ignore_case else name

    def _with_planned_domain(self, name: str) -> str:
        """Returns a name without its domain, unless the plan has this host in another domain."""
        short = without_domain(name)
        domains = {self.domains.get(short, ""), name[len(short) + 1:]}
        return name if len(domains - {""}) > 1 else short

    def with_domains_of(self, hosts: Iterable[str]) -> Names:
        """Returns the same rules with the domains of planned hosts, so that hosts in different
        domains differ."""
        domains = {without_domain(self.whole_host(host)): self.domain(host) for host in hosts}
        return Names(*self._given, self.aliases, domains)

    def with_planned(self, ends: Collection[End], shared: Mapping[End, tuple[str, ...]] = {}
                     ) -> Names:
        """Returns the same rules for these planned ends. Each of the ports in `shared` gives its
        name to the ports that share it, as an alias."""
        aliases = self.aliases._replace(ports={**self.aliases.ports, **shared})
        return Names(*self._given, aliases, self.domains, ends)

    def domain(self, host: str) -> str:
        """Returns the domain of a host's name, or an empty text if it has none."""
        name = self.whole_host(host)
        return name[len(without_domain(name)) + 1:]

    def plain_port(self, name: str) -> str:
        """Returns a port's name, normalized except for aliases."""
        if not self.vendor_names and not self.ignore_case:
            return name
        key = self._ports.get(name)
        if key is None:
            key = plain_port(name) if self.vendor_names else name
            if self.ignore_case:  # before and after, since Linux has no name `Eth1`
                key = plain_port(key.casefold()) if self.vendor_names else key.casefold()
            self._ports[name] = key
        return key

    def ports(self, host: str, name: str) -> Sequence[str]:
        """Returns the normalized ports that a name means at a host."""
        if self._is_strict:
            return (name,)
        port = self.plain_port(name)
        aliases = self.aliases.ports
        return aliases.get(End(host, port)) or aliases.get(End("", port)) or (port,)

    def end(self, end: End) -> End:
        """Returns an end, normalized. An alias that several ports share is not resolved."""
        if self._is_strict:
            return end
        host = self.host(end.host)
        ports = self.ports(host, end.port)
        return End(host, ports[0] if len(ports) == 1 else self.plain_port(end.port))

    def answers(self, neighbor: Seen, end: End) -> bool:
        """Returns whether a neighbor may be this normalized end, by the names that it announces."""
        if self._is_strict:
            return (end.host in neighbor.hosts and end.host in self.heeded_hosts(neighbor)
                    and (end.port == neighbor.port_id or end.port in self.heeded(neighbor)))
        if end.host not in self.hosts_of(neighbor):
            return False
        return (self.is_any_member(neighbor, end.host)
                or any(end.port in self.ports(end.host, port) for port in self.heeded(neighbor)))

    def by(self, neighbor: Seen, end: End) -> str:
        """Returns by which weaker names a neighbor answers to this planned end, such as `address
        and description`: it also announces stronger ones, which no plan has."""
        host = port = ""
        if self.host(neighbor.hosts[0]) != end.host:
            name, first, chassis = map(plain, (self._strict.heeded_hosts(neighbor)[0],
                                               neighbor.hosts[0], neighbor.chassis))
            host = "" if name == first else "chassis ID" if name == chassis else "address"
        if neighbor.port_id not in ("", end.port) and (
                end.port not in self.ports(end.host, neighbor.port_id)):
            is_named = any(end.port in self.ports(end.host, one) for one in self.heeded(neighbor))
            port = "description" if is_named else "aggregate"
        return f"{host} and {port}" if host and port else host or port

    def heeded(self, neighbor: Seen) -> Sequence[str]:
        """Returns the names of a neighbor's port that count: only the Port ID if that is a planned
        port of its host, or an interface name that is a planned port of any host; otherwise all."""
        ports = neighbor.ports
        if len(ports) < 2:
            return ports
        port_id = ports[0] if neighbor.is_named else neighbor.port_id
        return (port_id,) if self._strict.is_planned(neighbor, port_id) else ports

    def is_planned(self, neighbor: Seen, port_id: str) -> bool:
        """True if a Port ID is planned at its host or, if it names an interface, at any host."""
        if self._is_strict:  # quicker
            if neighbor.is_named and port_id in self._planned_ports:
                return True
            for host in self.heeded_hosts(neighbor):
                if (host, port_id) in self.planned:
                    return True
            return False
        return any(End(host, port) in self.planned
                   or neighbor.is_named and port in self._planned_ports
                   for host in self.hosts_of(neighbor) for port in self.ports(host, port_id))

    def is_any_member(self, neighbor: Seen, host: str) -> bool:
        """Returns whether a neighbor may be any port of a normalized host: it names an aggregate in
        place of its port, and no alias says which ports are members."""
        return (self.vendor_names and neighbor.aggregated
                and any(is_aggregate(port) and not self.has_alias(host, port)
                        for port in self.heeded(neighbor)))

    def hosts_of_aggregate(self, neighbor: Seen) -> set[str]:
        """Returns the hosts at which a neighbor may be any port, because it names an aggregate."""
        return {host for host in self.hosts_of(neighbor) if self.is_any_member(neighbor, host)}

    def has_alias(self, host: str, name: str) -> bool:
        """Returns whether the name of a port is an alias at a normalized host."""
        port, aliases = self.plain_port(name), self.aliases.ports
        return End(host, port) in aliases or End("", port) in aliases

    def ends(self, neighbor: Seen) -> Iterable[End]:
        """Returns each normalized end that a neighbor may be, by the names of its port."""
        ports = self.heeded(neighbor)
        if self._is_strict:  # quicker
            return [End(host, port) for host in self.heeded_hosts(neighbor) for port in ports]
        return [End(host, key) for host in self.hosts_of(neighbor) for port in ports
                for key in self.ports(host, port)]

    def looser(self, *differences: str) -> Names:
        """Returns rules that also ignore these differences: case, domain or spelling."""
        rules = (self.ignore_case or "case" in differences,
                 self.short_names or "domain" in differences,
                 self.vendor_names or "spelling" in differences, self.aliases)
        hosts = [f"{short}.{domain}".rstrip(".") for short, domain in self.domains.items()
                 ] if "domain" not in differences else ()
        return Names(*rules, Names(*rules).with_domains_of(hosts).domains, strict=self)

    def of_whole_hosts(self) -> Names:
        """Returns the same rules, but with domains compared."""
        return Names(self.ignore_case, False, self.vendor_names, self.aliases)


def without_domain(name: str) -> str:
    """Returns a host's name up to its first dot, or an IP or MAC address as it is."""
    if MAC.fullmatch(name):
        return name
    with suppress(ValueError):
        ipaddress.ip_address(name)
        return name
    return name.partition(".")[0] or name


def shown(name: str) -> str:
    """Returns a name as a line shows it: unprintable characters are escaped as octets, a name with
    a blank is in quotes, and a name that is too long for LLDP is cut."""
    text = printable(name[:LONGEST]) + (CUT if len(name) > LONGEST else "")
    return text if text and " " not in text else f'"{text}"'


def first_of(names: Sequence[str]) -> list[str]:
    """Returns the first of some names as a line shows them, and how many more there are."""
    more = len(names) - MOST_NAMED
    return [*map(shown, names[:MOST_NAMED]), *([f"{more} more"] if more > 0 else [])]


def text_of(name: str) -> str:
    """Returns a name as valid Unicode: octets that are not UTF-8 are escaped."""
    if name.isascii():
        return name
    return "".join(escaped(letter) if "\ud800" <= letter <= "\udfff" else letter for letter in name)
