"""For tests: a fabric of 2,000 links with panels, trunks, LAGs and breakouts, and 100 faults.

`peer` maps each plugged end to the end that its cable leads to. Each fault changes the plugged
cables, a host's name, or what a host sends or hears. No end belongs to two faults, so each end in
the audit's answer belongs to one fault or to none.
"""
import random
from collections import defaultdict
from typing import Dict, Iterator, List, NamedTuple, Sequence, Set, Tuple

End = Tuple[str, str]
LEAFS, SPINES, SERVERS = 32, 8, 400
CASSETTE = 12  # front ports of a panel before the servers, with one rear port


class Fault(NamedTuple):
    """A fault: the ends where it may be reported, and the kinds and greatest number of repairs."""

    kind: str
    ends: Set[End]
    repairs: Set[str]
    most: int


class Fabric:
    """The planned links, the plugged ones, and the faults."""

    def __init__(self, seed: int, times: int = 5) -> None:
        self.dice = random.Random(seed)
        self.links: List[Tuple[End, End]] = list(links())
        self.peer: Dict[End, End] = {}
        for one, other in self.links:
            self.join(one, other)
        self.planned = dict(self.peer)
        self.names: Dict[str, str] = {}
        self.beside: Dict[End, List[End]] = defaultdict(list)
        self.deaf, self.mute, self.hidden = set[End](), set[End](), set[End]()
        self.lags = dict(lags())
        self.faults: List[Fault] = []
        self.servers = [f"srv{number:03}" for number in range(1, SERVERS + 1)]
        self.dice.shuffle(self.servers)
        self.leafs = [f"leaf{number:02}" for number in range(1, LEAFS + 1)]
        self.lanes = list(range(LEAFS + 4))
        for _ in range(times):
            for plant in (self.exchange_cables, self.unplug_cables, self.move_cables,
                          self.break_ports_out, self.join_ports, self.change_names,
                          self.change_what_is_heard):
                plant()

    def join(self, one: End, other: End) -> None:
        self.peer[one], self.peer[other] = other, one

    def cut(self, *ends: End) -> List[End]:
        """Unplugs the cables of these ends. Returns the cables' other ends."""
        others = [self.peer.pop(end) for end in ends]
        for other in others:
            del self.peer[other]
        return others

    def server(self) -> List[End]:
        """Returns the ends of a server that has no fault yet, eth0 to eth3."""
        name = self.servers.pop()
        return [(name, f"eth{port}") for port in range(4)]

    def port(self) -> End:
        """Returns the first port of a server that has no fault yet."""
        return self.server()[0]

    def free(self, leaf: str, row: str) -> End:
        """Returns an unplanned port of a leaf."""
        return leaf, f"swp{row}{len(self.faults):02}"

    def told(self, kind: str, ends: Sequence[End], repairs: str, most: int = 1) -> None:
        """Notes a fault that may be reported at these ends and at their planned peers."""
        all_ends = {*ends, *(self.planned[end] for end in ends if end in self.planned)}
        self.faults.append(Fault(kind, all_ends, set(repairs.split(",")), most))

    def exchange_cables(self) -> None:
        for kind, ends, repairs, most in (
                ("swapped", [self.port(), self.port()], "swapped", 1),
                ("rotated", [self.port(), self.port(), self.port()], "wrong,shifted", 3),
                ("turned", list(lanes_of(self.lanes.pop())), "turned", 1)):
            peers = [self.peer[end] for end in ends]
            for end, peer in zip(ends, [*peers[1:], peers[0]]):  # each gets the cable of the next
                self.join(end, peer)
            self.told(kind, ends, repairs, most)

    def unplug_cables(self) -> None:
        end = self.port()
        self.cut(end)
        self.told("unplugged", [end], "silent")
        end = self.port()
        leaf, = self.cut(end)
        self.peer[leaf] = (f"guest{len(self.faults)}", "eth9")
        self.told("stranger", [end], "wrong")

    def move_cables(self) -> None:
        end = self.port()
        leaf, = self.cut(end)
        free = self.free(leaf[0], "9")
        self.join(end, free)
        self.told("moved", [end, free], "moved")
        leaf_name = self.leafs.pop()
        ports = [(leaf_name, f"swp{number}") for number in range(52, 57)]
        for port, peer in zip(ports, self.cut(*ports)[1:]):
            self.join(port, peer)
        self.told("shifted", ports, "shifted")

    def break_ports_out(self) -> None:
        lanes = list(lanes_of(self.lanes.pop()))
        whole = (lanes[0][0], lanes[0][1][:-2])
        self.join(whole, self.cut(*lanes)[0])
        self.told("not broken out", [*lanes, whole], "not broken out")

    def join_ports(self) -> None:
        leafs = [self.peer[end][0] for end in self.server()[:2]]
        ends = [self.free(leafs[0], side) for side in ("80", "81")]
        self.join(*ends)
        self.told("loop", ends, "loop")
        end = next(end for end in iter(self.port, None) if end not in self.lags)
        self.cut(end)
        self.peer[end] = end
        self.told("itself", [end], "loop")
        ends = [self.free(leaf, "7") for leaf in leafs]
        self.join(*ends)
        self.told("unplanned", ends, "unplanned")

    def change_names(self) -> None:
        for kind, change in (("renamed", lambda name: f"web-{name}"), ("capitals", str.upper),
                             ("domain", lambda name: f"{name}.example.net")):
            ends = self.server()
            self.names[ends[0][0]] = change(ends[0][0])
            self.told(kind, ends, "renamed")
        ends, others = self.server(), self.server()
        self.names[ends[0][0]] = others[0][0]
        self.told("two of one name", [*ends, *others], "renamed")

    def change_what_is_heard(self) -> None:
        deaf, mute, silent, extra, doubled = [self.port() for _ in range(5)]
        self.deaf.add(deaf)
        self.told("one-sided", [deaf], "one-sided")
        self.mute.update([mute, self.peer[mute]])
        self.told("mute", [mute], "silent")
        self.hidden.add(self.peer[silent])
        self.told("hidden", [silent], "no data,one-sided")
        self.beside[self.peer[extra]].append((f"phone{len(self.faults)}", "port1"))
        self.told("extra", [extra], "extra")
        self.beside[self.peer[doubled]].append(doubled)
        self.told("doubled", [doubled], "doubled")

    def heard(self, end: End) -> List[End]:
        """Returns the neighbors that an end hears: the name and the port of each."""
        found = [] if end in self.deaf else [
            peer for peer in [self.peer.get(end)] if peer is not None and peer not in self.mute]
        return [(self.names.get(end[0], end[0]), self.said(end))
                for end in [*found, *self.beside[end]]]

    def said(self, end: End) -> str:
        """Returns the port name that an end announces: the LAG's name at some servers."""
        is_named = end in self.lags and end[0].startswith("srv") and end[0].endswith("0")
        return self.lags[end][0] if is_named else end[1]

    def hosts(self) -> Dict[str, Dict[str, List[End]]]:
        """Returns what each planned host hears at each of its ports that is not hidden."""
        hosts: Dict[str, Dict[str, List[End]]] = defaultdict(dict)
        for end in {*self.planned, *self.peer}:
            if end not in self.hidden and not end[0].startswith("guest"):
                hosts[end[0]][end[1]] = self.heard(end)
        return {host: dict(sorted(ports.items())) for host, ports in sorted(hosts.items())}


def links() -> Iterator[Tuple[End, End]]:
    """Yields 1,600 links of servers, 256 of spines, and 144 of breakouts."""
    for server in range(SERVERS):
        for port in range(4):
            leaf, place = server % 16 * 2 + port % 2 + 1, server // 16 * 2 + port // 2 + 1
            yield (f"leaf{leaf:02}", f"swp{place}"), (f"srv{server + 1:03}", f"eth{port}")
    for leaf in range(1, LEAFS + 1):
        for spine in range(1, SPINES + 1):
            yield (f"leaf{leaf:02}", f"swp{50 + spine}"), (f"spine{spine}", f"swp{leaf}")
    for number in range(LEAFS + 4):
        for lane, end in enumerate(lanes_of(number)):
            yield end, (f"stor{number + 1:02}", f"p{lane}")


def lags() -> Iterator[Tuple[End, Tuple[str, int]]]:
    """Yields each end that is in a LAG, with the LAG's name and number at that end. Every fifth
    server has two LAGs, each of two links to one leaf."""
    for one, other in links():
        if other[0].startswith("srv") and other[0][-1] in "05":
            number, side = int(other[0][3:]), int(other[1][3:]) % 2
            yield one, (f"bond{number}", number)
            yield other, (f"bond{side}", 1 + side)


def lanes_of(number: int) -> Iterator[End]:
    leaf, port = f"leaf{number % LEAFS + 1:02}", 60 + number // LEAFS
    for lane in range(4):
        yield leaf, f"swp{port}s{lane}"


def is_paneled(one: End) -> bool:
    """Returns whether an end is one of a leaf's ports swp1 to swp12, whose links have panels."""
    return one[0].startswith("leaf") and one[1][3:].isdecimal() and int(one[1][3:]) <= CASSETTE


def cables(links: Sequence[Tuple[End, End]]) -> Iterator[Tuple[End, End]]:
    trunks = set()
    for one, other in links:
        if not is_paneled(one):
            yield one, other
            continue
        near, far, front = f"pn-{one[0]}", f"pf-{one[0]}", f"F{one[1][3:]}"
        yield one, (near, front)
        yield (far, front), other
        if near not in trunks:
            trunks.add(near)
            yield (near, "R1"), (far, "R1")


def csv_plan(links: Sequence[Tuple[End, End]]) -> str:
    """Returns the plan of these links as CSV, with a label and a rack for each cable."""
    rows = [f"{a},{b},{c},{d},C{number},r{number % 40}\n"
            for number, ((a, b), (c, d)) in enumerate(cables(links))]
    return "host,port,peer,peer_port,label,rack\n" + "".join(rows)


def panels() -> str:
    """Returns the panels' front ports as NetBox exports them. Each panel has one rear port."""
    return "device,name,rear_port,rear_port_position\n" + "".join(
        f"{side}-leaf{leaf:02},F{port},R1,{port}\n" for side in ("pn", "pf")
        for leaf in range(1, LEAFS + 1) for port in range(1, CASSETTE + 1))
