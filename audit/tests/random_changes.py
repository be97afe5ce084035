"""For tests: random networks at two times, between which cables, devices and names are exchanged.

Switches have lists, devices have none. Some devices share a name, and some Port Descriptions name
another port. `peer` maps each plugged end to the end that its cable leads to.
"""
import json
import random
from typing import Dict, List, Mapping, NamedTuple, Optional, Set

from lldpa_audit.names import End


class Heard(NamedTuple):
    """What an end announces: the fields of NAPALM's list."""

    remote_system_name: str
    remote_chassis_id: str
    remote_port: str
    remote_port_description: str


class Time(NamedTuple):
    """What is seen at one time: what each end of each listed switch hears."""

    heard: Dict[End, Optional[Heard]]
    hosts: Set[str]

    def lists(self) -> Mapping[str, str]:
        """Returns the list of each switch in NAPALM's form."""
        ports: Dict[str, Dict[str, List[Mapping[str, str]]]] = {host: {} for host in self.hosts}
        for end, far in self.heard.items():
            ports[end.host][end.port] = [far._asdict()] if far is not None else []
        return {host: json.dumps(some) for host, some in ports.items()}


class TwoTimes:
    def __init__(self, seed: int) -> None:
        self.dice = dice = random.Random(seed)
        self.switches = [f"leaf{number}" for number in range(1, dice.randint(2, 4))]
        self.devices = [f"d{number}" for number in range(1, dice.randint(2, 8))]
        self.names = {box: box for box in (*self.switches, *self.devices)}
        for device in self.devices:
            if dice.random() < 0.2:
                self.names[device] = dice.choice(self.devices)
        self.chassis = {box: f"02:00:00:00:00:{at:02x}" for at, box in enumerate(self.names)}
        self.descriptions = {End(device, f"e{port}"): f"e{dice.randint(0, 3)}"
                             for device in self.devices for port in range(4) if dice.random() < 0.3}
        self.peer: Dict[End, End] = {}
        for end in [End(device, f"e{port}") for device in self.devices for port in range(4)]:
            if dice.random() < 0.5:
                self.plug(end)
        for _ in range(dice.randint(0, 2) if len(self.switches) > 1 else 0):
            self.plug(self.free())
        self.before = self.time()
        self.kinds = [dice.choice((self.exchange, self.exchange, self.exchange_devices, self.move,
                                   self.unplug, self.plug_in, self.rename))
                      for _ in range(dice.choice((0, 0, 1, 1, 2, 3)))]
        for change in self.kinds:
            change()
        self.now = self.time()

    def free(self) -> End:
        """Returns a port of a switch without a cable."""
        ends = [End(switch, f"swp{port}") for switch in self.switches for port in range(1, 40)]
        return self.dice.choice([end for end in ends if end not in self.peer])

    def plug(self, end: End) -> None:
        """Joins an end without a cable to a free port of a switch."""
        far = self.free()
        if end not in self.peer and far != end:
            self.peer[end], self.peer[far] = far, end

    def exchange(self) -> None:
        """Exchanges the cables at two ends."""
        ends = sorted(self.peer)
        if len(ends) > 2:
            one, other = self.dice.sample(ends, 2)
            mine, its = self.peer[one], self.peer[other]
            if mine != other:
                self.peer.update({one: its, its: one, other: mine, mine: other})

    def exchange_devices(self) -> None:
        """Exchanges two devices with all their cables, often two of one name."""
        pairs = [(one, other) for one in self.devices for other in self.devices if one < other]
        alike = [pair for pair in pairs if self.names[pair[0]] == self.names[pair[1]]]
        for one, other in self.dice.sample(alike or pairs, min(1, len(pairs))):
            for port in range(4):
                ends = End(one, f"e{port}"), End(other, f"e{port}")
                fars = [self.peer.pop(end, None) for end in ends]
                for end, far in zip(ends[::-1], fars):
                    if far is not None:
                        self.peer[end], self.peer[far] = far, end

    def move(self) -> None:
        if self.peer:
            end, place = self.dice.choice(sorted(self.peer)), self.free()
            far = self.peer.pop(end)
            self.peer[far], self.peer[place] = place, far

    def unplug(self) -> None:
        if self.peer:
            del self.peer[self.peer.pop(self.dice.choice(sorted(self.peer)))]

    def plug_in(self) -> None:
        self.plug(End(self.dice.choice(self.devices), f"e{self.dice.randint(4, 9)}"))

    def rename(self) -> None:
        device = self.dice.choice(self.devices)
        self.names[device] = f"new-{device}"

    def announced(self, end: End) -> Heard:
        return Heard(self.names[end.host], self.chassis[end.host], end.port,
                     self.descriptions.get(end, ""))

    def time(self) -> Time:
        """Returns what is seen now. Some lists are missing."""
        hosts = {switch for switch in self.switches if self.dice.random() < 0.9} or {"leaf1"}
        ends = {end for end in self.peer if end.host in hosts}
        return Time({end: self.announced(self.peer[end]) for end in sorted(ends)}, hosts)

    def differing(self) -> Set[End]:
        """Returns the ends with lists at both times that hear something else now."""
        ends = {*self.before.heard, *self.now.heard}
        return {end for end in ends if end.host in self.before.hosts & self.now.hosts
                and self.before.heard.get(end) != self.now.heard.get(end)}
