"""For tests: random networks in which cables, lanes, panels, bonds and names are exchanged.

Each box is planned by one name and announces one; the two may differ in case, domain or spelling.
So may the names in a host's own list. `peer` maps each plugged end to the end that its cable leads
to. Nobody hears a firewall between two switches; a cable may bypass it. The plan may be NetBox's
table, which has no types of ports.
"""
import json
import random
from typing import Dict, Iterator, List, NamedTuple, Optional, Sequence, Set, Tuple

from auditing import HEAD, neighbor
from lldpa_audit.names import End

EMPTY = "lldp.{0}.neighbors=0\nlldp.{0}.octets=0\nlldp.{0}.too-many=no\n"
FIELDS = ("remote_system_name", "remote_port", "remote_chassis_id")
STRANGER = End("stranger", "p1")
OPTIONS = ("--ignore-case", "--short-names", "--vendor-names", "--aliases aliases",
           "--planned-only", "--partial", "--known known")


class Box(NamedTuple):
    """How a box's announced name and ports differ from the planned ones."""

    is_upper: bool
    has_domain: bool
    is_spelled: bool


class Network:
    def __init__(self, seed: int) -> None:
        self.dice = dice = random.Random(seed)
        self.options = {option for option in OPTIONS if dice.random() < 0.5}
        self.switches = [f"leaf{number}" for number in range(dice.randint(1, 3))]
        self.servers = [f"srv{number}" for number in range(dice.randint(1, 6))]
        self.links: List[Tuple[End, End]] = []
        self.bonds: Dict[End, Tuple[str, int]] = {}
        self.paneled: Set[End] = set()
        self.ports = {switch: self.ports_of_switch() for switch in self.switches}
        self.is_netbox = dice.random() < 0.4
        for server in self.servers:
            self.add_server(server)
        self.firewalls = [f"fw{number}" for number in range(dice.choice((0, 0, 1, 2)))]
        for firewall in self.firewalls:
            for at in range(2):
                switch = dice.choice(self.switches)
                self.links.append((End(switch, next(self.ports[switch])), End(firewall, f"p{at}")))
        self.mute = {*self.firewalls, *(one for one in self.servers if dice.random() < 0.1)}
        self.wants = {one: other for link in self.links for one, other in (link, link[::-1])}
        self.peer = dict(self.wants)
        self.boxes = {host: Box(*(dice.random() < 0.15 for _ in range(3)))
                      for host in (*self.switches, *self.servers, *self.firewalls)}
        self.odd = {host: (dice.random() < 0.3, dice.random() < 0.3) for host in self.boxes}
        for firewall in self.firewalls:
            if dice.random() < 0.5:
                self.bypass(firewall)
        self.announced = {host: host for host in self.boxes}
        for _ in range(dice.choice((0, 0, 1, 1, 2, 3))):
            dice.choice((self.exchange, self.exchange, self.exchange_in_a_host, self.move,
                         self.unplug, self.exchange_names))()
        self.covered = {end for host in self.boxes if dice.random() < 0.6 and host[:2] != "fw"
                        for end in {*self.wants, *self.peer} if end.host == host
                        and dice.random() < 0.95}

    def ports_of_switch(self) -> Iterator[str]:
        """Yields a switch's ports, some with lanes."""
        for number in range(1, 100):
            if self.dice.random() < 0.2:
                yield from (f"Ethernet1/{number}/{lane}" for lane in range(1, 5))
            else:
                yield f"Ethernet1/{number}"

    def add_server(self, server: str) -> None:
        """Plans a server's links, perhaps through panels, and perhaps in one or two bonds."""
        dice = self.dice
        count = dice.randint(1, 4)
        number_of_bonds = dice.choice((0, 0, 1, 2)) if count > 1 else 0
        for at in range(count):
            switch = dice.choice(self.switches)
            link = End(switch, next(self.ports[switch])), End(server, f"eth{at}")
            self.links.append(link)
            if number_of_bonds:
                bond = at % number_of_bonds
                self.bonds[link[1]] = f"bond{bond}", bond + 1
                self.bonds[link[0]] = "", 10 * int(server[3:]) + bond + 1
            if dice.random() < 0.3 and not self.is_netbox:
                self.paneled.add(link[0])

    def exchange_ends(self, one: End, other: End) -> None:
        """Exchanges the cables at two ends."""
        mine, its = self.peer.pop(one, None), self.peer.pop(other, None)
        for end, far in ((one, its), (other, mine)):
            if far is not None:
                self.peer[end], self.peer[far] = far, end

    def exchange(self) -> None:
        ends = sorted(self.wants)
        one, other = self.dice.choice(ends), self.dice.choice(ends)
        if other not in (one, self.peer.get(one)):
            self.exchange_ends(one, other)

    def bypass(self, firewall: str) -> None:
        """Joins the ends at both sides of a firewall by a cable."""
        one, other = [self.peer.pop(End(firewall, f"p{at}")) for at in range(2)]
        self.peer[one], self.peer[other] = other, one

    def hears(self, end: End) -> Optional[End]:
        """Returns the end that an end hears, or None."""
        far = self.peer.get(end)
        return far if far is not None and far.host not in self.mute else None

    def listed(self, host: str) -> str:
        """Returns the name of a host by which its list is given."""
        return host.upper() if self.odd[host][0] and "--ignore-case" in self.options else host

    def listed_port(self, end: End) -> str:
        """Returns the name of a port in the list of its host."""
        is_odd = self.odd[end.host][1] and "--vendor-names" in self.options
        return end.port.replace("Ethernet", "Eth") if is_odd else end.port

    def exchange_in_a_host(self) -> None:
        """Exchanges two cables of one host: two lanes, or two members of bonds."""
        host = self.dice.choice(sorted(self.boxes))
        ends = [end for end in sorted(self.wants) if end.host == host]
        if len(ends) > 1:
            self.exchange_ends(*self.dice.sample(ends, 2))

    def move(self) -> None:
        """Moves a cable to an unplanned port of any switch."""
        switch = self.dice.choice(self.switches)
        place = End(switch, next(self.ports[switch]))
        self.exchange_ends(self.dice.choice(sorted(self.wants)), place)

    def unplug(self) -> None:
        """Unplugs a cable, perhaps for one of a stranger."""
        end = self.dice.choice(sorted(self.wants))
        self.peer.pop(self.peer.pop(end, end), None)
        if self.dice.random() < 0.5:
            self.peer[end] = STRANGER

    def exchange_names(self) -> None:
        one, other = self.dice.choice(sorted(self.boxes)), self.dice.choice(sorted(self.boxes))
        self.announced[one], self.announced[other] = self.announced[other], self.announced[one]

    def said(self, end: End) -> Tuple[str, str]:
        """Returns the names of host and port that an end announces."""
        if end == STRANGER:
            return end
        box, host, port = self.boxes[end.host], self.announced[end.host], end.port
        host = host.upper() if box.is_upper else host
        host = f"{host}.example.net" if box.has_domain else host
        port = self.bonds.get(end, ("", 0))[0] or port
        return host, port.replace("Ethernet", "Eth") if box.is_spelled else port

    def answers(self, heard: End, wanted: End) -> bool:
        """Returns whether what an end announces is what the plan names, by the options."""
        if heard == STRANGER or self.announced[heard.host] != wanted.host:
            return False
        box, loose = self.boxes[heard.host], self.options
        if (box.is_upper and "--ignore-case" not in loose
                or box.has_domain and "--short-names" not in loose
                or box.is_spelled and heard.port[0] == "E" and "--vendor-names" not in loose):
            return False
        bond = self.bonds.get(heard, ("", 0))[0]
        if "--aliases aliases" in loose and any(end.host == wanted.host and its == bond
                                                for end, (its, _) in self.bonds.items() if bond):
            return self.bonds.get(wanted, ("", 0))[0] == bond
        return heard.port == wanted.port if not bond else "--vendor-names" in loose

    def is_looked_at(self) -> bool:
        """Returns whether a host with planned cables has a list; an audit of others is refused."""
        return any(end.host in {one.host for one in self.wants} for end in self.covered)

    def state(self, link: Tuple[End, End]) -> Optional[str]:
        """Returns the state of a link: right if each covered end hears only the end that it wants.
        Returns None if bonds without aliases hide which of a host's ports an end hears."""
        ends = [end for end in link if end in self.covered]
        hear = [self.hears(end) for end in ends]
        is_hidden = "--vendor-names" in self.options and "--aliases aliases" not in self.options
        if is_hidden and any(end.host == host and end in self.bonds and end != self.peer.get(far)
                             for host in {one.host for one in link}
                             for end, far in self.wants.items()):
            return None
        if not ends:
            return "not looked at"
        are_right = [far is not None and self.answers(far, self.wants[end])
                     for end, far in zip(ends, hear)]
        return "right" if all(are_right) else "wrong"

    def files(self) -> Dict[str, str]:
        """Returns the plan, panels, aliases, known faults, and the covered hosts' lists."""
        of_hosts: Dict[str, List[End]] = {}
        for end in sorted(self.covered, key=lambda _: self.dice.random()):
            of_hosts.setdefault(end.host, []).append(end)
        lists = {host: self.list_of(ends) for host, ends in of_hosts.items()}
        aliases = "".join(f"{end.host},{end.port},{bond}\n"
                          for end, (bond, _) in self.bonds.items() if bond)
        known = "host,port,reason,until\n" + (f"{self.servers[0]},,off,\n")
        rows = self.rows_of_netbox() if self.is_netbox else self.rows()
        return {"plan": "".join(rows), "panels": "".join(self.panels()), "known": known,
                "aliases": f"host,port,alias\n{aliases}", **lists}

    def list_of(self, ends: Sequence[End]) -> str:
        """Returns a host's list: NAPALM's, with a chassis ID in any spelling, or our own one. Only
        our own one can omit ports, and says whether a link is aggregated."""
        heard = {end: far for end in ends for far in [self.hears(end)] if far is not None}
        is_whole = {*ends} >= {end for end in self.wants if end.host == ends[0].host}
        if is_whole and not any(self.bonds.get(far, ("", 0))[1] for far in heard.values()):
            return json.dumps({self.listed_port(end): [dict(zip(FIELDS, (
                *self.said(far), self.chassis(far))))]
                               for end, far in heard.items()})
        return "".join(EMPTY.format(self.listed_port(end)) if end not in heard else neighbor(
            self.listed_port(end), *self.said(heard[end]),
            aggregate=self.bonds.get(heard[end], ("", 0))[1])
            for end in ends)

    def chassis(self, end: End) -> str:
        """Returns the MAC address of a box, as one of three vendors writes it."""
        digits = f"{sum(map(ord, self.announced.get(end.host, end.host))):012x}"
        pairs = ":".join(digits[at:at + 2] for at in range(0, 12, 2))
        return self.dice.choice((pairs, pairs.upper(), ".".join(
            digits[at:at + 4] for at in range(0, 12, 4))))

    def rows(self) -> Iterator[str]:
        yield HEAD.replace("\n", ",cable\n")
        for number, (one, other) in enumerate(self.links):
            rows: Sequence[Sequence[str]] = [(*one, *other)]
            if one in self.paneled:
                rows = [(*one, "pp1", f"F{number}"), ("pp1", f"R{number}", "pp2", f"R{number}"),
                        ("pp2", f"F{number}", *other)]
            yield from (f"{','.join(row)},C{number % 3}\n" for row in rows)

    def rows_of_netbox(self) -> Iterator[str]:
        yield "ID,Label,Termination A,Termination B,Device A,Device B,Status,Type\n"
        tags = {host: f" (A{at})" if at % 3 == 0 else "" for at, host in enumerate(self.boxes)}
        for number, (one, other) in enumerate(self.links):
            yield (f"{number},C{number % 3},{one.port},{other.port},{one.host}{tags[one.host]},"
                   f"{other.host}{tags[other.host]},Connected,CAT6\n")

    def panels(self) -> Iterator[str]:
        yield "panel,front,rear\npp9,F,R\n"
        for number, (one, _) in enumerate(self.links):
            if one in self.paneled:
                yield f"pp1,F{number},R{number}\npp2,F{number},R{number}\n"
