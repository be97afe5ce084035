"""For tests: random switches with breakout cables beside ordinary ports, and a slow judge of them.
The ports have the names of each vendor in the table of lldpa_audit/lanes.py, or of an unknown one.

Some cables are not where the plan has them. A link is right if its far end is at a lane of its
port, or at the port that the plan names.
"""
import random
import re
from typing import Dict, List, Optional, Tuple

from lldpa_audit.lanes import SCHEMES, Scheme
from lldpa_audit.names import End

# vendors that no row of the table has
UNKNOWN = (Scheme("an underscore", "{}", "swp{}", "swp{}_{lane}", 0),
           Scheme("a letter", "1/{}", "Ethernet{}", "Ethernet{}.{lane}x", 1),
           Scheme("another word", "1/{}", "qsfp-{}", "sfp-{}/{lane}", 1))
CABLES = "device_a,termination_a,device_b,termination_b\n"
STRANGER = End("stranger", "p")


class Breakouts:
    """A switch `sw` whose ports are broken out or not. `plan` maps each port to its far ends, and
    `plugged` maps each lane or ordinary port to the far end that its cable leads to. `unclear` is
    true if the names of lanes may be those of other ports, so that nobody can judge them."""

    def __init__(self, seed: int) -> None:
        self.dice = dice = random.Random(seed)
        self.scheme = dice.choice((*SCHEMES, dice.choice(UNKNOWN)))
        self.form = dice.choice(self.scheme.ports.split(", "))
        self.is_sum = "{sum}" in self.scheme.lanes
        self.step = dice.choice((4, 8)) if self.is_sum else 1
        self.first = dice.choice((0, 1)) if self.is_sum else dice.choice((1, 3, 24))
        self.plan: Dict[str, List[End]] = {}
        self.plugged: Dict[str, End] = {}
        self.lanes: Dict[str, List[str]] = {}
        for number in range(self.first, self.first + dice.randint(1, 9)):
            self.add_port(number, dice.choice((1, 1, 2, 4, 8, dice.randint(2, 8))))
        self.is_loose = dice.random() < 0.3  # lists have another spelling
        self.is_whole = {port: dice.random() < 0.15 for port in self.lanes}
        self.change()
        self.listed = {"sw"} if dice.random() < 0.7 else set()
        self.has_silent_ports = dice.random() < 0.5
        self.listed.update(end.host for ends in self.plan.values() for end in ends
                           if dice.random() < 0.4)
        if not self.listed:
            self.listed = {"sw"}

    @property
    def is_unclear(self) -> bool:
        is_known = self.scheme in SCHEMES
        return not is_known or self.is_sum or self.scheme.vendor.startswith(("EOS", "NX", "OS10"))

    def name(self, form: str, number: int, lane: int = 0) -> str:
        """Returns the name of a port, or of one of its lanes."""
        text = self.scheme.number.format(number * self.step)
        total = re.sub("[0-9]+$", lambda last: str(int(last[0]) + lane), text)
        return form.format(text, lane=self.scheme.first + lane, sum=total)

    def add_port(self, number: int, count: int) -> None:
        """Plans a port, with a far end for each lane, often all of one host."""
        dice, port = self.dice, self.name(self.form, number)
        count = min(count, self.step) if self.is_sum else count
        whole = f"h{number}" if dice.random() < 0.5 else None
        ends = [End(whole or f"h{number}x{lane}", f"e{lane}") for lane in range(count)]
        self.plan[port] = ends
        if count == 1:
            self.lanes[port] = [port]
        else:
            number_of_lanes = max(count, dice.choice((count, 4, self.step if self.is_sum else 8)))
            form = dice.choice(self.scheme.lanes.split(", "))
            self.lanes[port] = [self.name(form, number, lane) for lane in range(number_of_lanes)]
            if not self.scheme.is_beside and dice.random() < 0.1:
                self.add_ordinary(self.name(form, number, 9), f"h{number}y")
        dice.shuffle(ends)
        self.plugged.update(zip(self.lanes[port], ends))

    def add_ordinary(self, port: str, host: str) -> None:
        """Plans an ordinary port, which has the name of a lane."""
        self.plan[port], self.lanes[port] = [End(host, "e0")], [port]
        self.plugged[port] = End(host, "e0")

    def change(self) -> None:
        """Exchanges, moves and unplugs some cables."""
        dice = self.dice
        for _ in range(dice.choice((0, 1, 1, 2, 3))):
            places = [lane for lanes in self.lanes.values() for lane in lanes]
            one, other = dice.choice(places), dice.choice([*places, *self.spare()])
            kind = dice.choice(("exchange", "exchange", "unplug", "stranger"))
            mine, its = self.plugged.pop(one, None), self.plugged.get(other)
            if kind == "exchange" and one != other:
                self.plugged.pop(other, None)
                self.plugged.update({place: end for place, end in ((one, its), (other, mine))
                                     if end is not None})
            elif kind == "stranger":
                self.plugged[one] = STRANGER

    def spare(self) -> List[str]:
        """Returns unplanned ports, of numbers near those of planned ones."""
        lanes = {lane for some in self.lanes.values() for lane in some}
        ports = [self.name(self.form, number) for number in range(self.first, self.first + 12)]
        return [port for port in ports if port not in lanes and port not in self.plan]

    def shown(self, place: str) -> str:
        """Returns the port that a list or a neighbor names for a lane: the lane, or its port."""
        port = next((port for port, lanes in self.lanes.items() if place in lanes), place)
        name = port if self.is_whole.get(port) else place
        return name.upper() if self.is_loose else name

    def seen(self) -> Dict[str, Dict[str, List[Tuple[str, str]]]]:
        """Returns the neighbors at each port of each host that has a list."""
        lists: Dict[str, Dict[str, List[Tuple[str, str]]]] = {host: {} for host in self.listed}
        places = [*self.plugged] if not self.has_silent_ports else [
            *(lane for lanes in self.lanes.values() for lane in lanes), *self.plugged]
        self.dice.shuffle(places)
        for place in dict.fromkeys(places):
            end = self.plugged.get(place)
            if "sw" in self.listed:
                heard = lists["sw"].setdefault(self.shown(place), [])
                heard += [(end.host, end.port)] if end is not None else []
            if end is not None and end.host in self.listed:
                lists[end.host].setdefault(end.port, []).append(("sw", self.shown(place)))
        return lists

    def csv(self) -> str:
        """Returns the plan as NetBox exports it, with either end of a cable first."""
        rows = []
        for port, ends in self.plan.items():
            hosts = {end.host for end in ends}
            host = ends[0].host if len(hosts) == 1 else ",".join(end.host for end in ends)
            sides = [("sw", port), (host, ",".join(end.port for end in ends))]
            self.dice.shuffle(sides)
            rows.append(",".join(f'"{text}"' for side in sides for text in side))
        return CABLES + "\n".join(rows) + "\n"

    def state(self, port: str, far: End) -> str:
        """Returns the state of the link between a planned port and a far end."""
        if not self.listed & {"sw", far.host}:
            return "not looked at"
        place: Optional[str] = next((one for one, end in self.plugged.items() if end == far), None)
        return "right" if place in self.lanes[port] else "wrong"
