"""For tests: makes random answers of lldpa-live. A seed makes the same ones again."""

import random
from typing import List, Sequence, Tuple

from lldpa import Neighbor, Port
from lldpa.agent.show import (CHASSIS_KINDS, PORT_KINDS, STATUSES, Configuration, Counters,
                              Identifier, Show, lines_of)
from samples import SAMPLES
from texts_shown import shown_text

VALUES = ("0078", "0079", "0000", "05f2", "ffff", "00", "", "zz00")  # of TLVs of organizations
WORDS = ("", "x", "lldp.eth0.neighbors=2", "lldp.eth0.1.ttl=07", "a.b='\"\\",  # lines out of place
         "configuration.further=3", "configuration.eth0.further=x", "lldp.eth0.early-frames=3")


class Made:
    """Random answers."""

    LETTERS = "aZ9 .-_\\\"'é京🐧\u0301\u202e\u200b\u3164\x1b\n\r\u0600"

    def __init__(self, seed: int) -> None:
        self.random = random.Random(seed)

    def octets(self) -> bytes:
        text = "".join(self.random.choices(self.LETTERS, k=self.random.choice((0, 1, 3, 8, 40))))
        noise = self.random.randbytes(self.random.choice((0, 0, 0, 1, 4)))
        return text.encode() + noise

    def text(self) -> str:
        return shown_text(self.octets())

    def address(self) -> str:
        groups = [self.random.choice((0, 0, 0, 1, 0xffff, 0xc000)) for _ in range(8)]
        long = ":".join(f"{group:04x}" for group in groups)
        return self.random.choice((long, "192.0.2.7", "af6:525400a1", "", self.text()))

    def identifier(self, kinds: Sequence[str]) -> Identifier:
        kind = self.random.choice(sorted(kinds))
        return Identifier(kind, self.address() if kind == "ip" else self.text())

    def tlv(self) -> Tuple[str, str]:
        key = self.random.choice(("port.descr", "chassis.name", "chassis.descr", "chassis.caps",
                                  "chassis.mgmt", "unknown.120", "later.key", "org.0080c2.1",
                                  "org.0080c2.1", "org.00120f.4", "org.001122.5", "org"))
        if key == "chassis.mgmt":
            return key, f"{self.address()},2,7,"
        if key == "org":
            return self.organizational()
        if key.startswith("org."):
            return key, self.random.choice(VALUES)
        return key, self.text()

    def organizational(self) -> Tuple[str, str]:
        """Returns a TLV of a sample, or of one with other octets, or more or less of them."""
        kind, sent = self.random.choice(SAMPLES)
        octets = bytearray(sent)
        way = self.random.randrange(5)
        if way == 0:
            octets[self.random.randrange(len(octets))] = self.random.randrange(256)
        elif way == 1:
            del octets[self.random.randrange(len(octets)):]
        elif way == 2:
            octets += self.random.randbytes(self.random.randrange(1, 4))
        return f"org.{kind}", octets.hex()

    def neighbor(self, port: str, place: int) -> Neighbor:
        tlvs = tuple(self.tlv() for _ in range(self.random.randrange(7)))
        return Neighbor(port, place, self.identifier(CHASSIS_KINDS), self.identifier(PORT_KINDS),
                        self.random.randrange(70000), self.random.randrange(70000), tlvs)

    def ports(self) -> Tuple[Port, ...]:
        ports = []
        for number in range(self.random.randrange(4)):
            name = f"eth{number}"
            neighbors = tuple(self.neighbor(name, place)
                              for place in range(1, 1 + self.random.choice((0, 1, 2, 9))))
            ports.append(Port(name, len(neighbors), 7, self.random.random() < 0.3, neighbors))
        return tuple(ports)

    def counters(self) -> Counters:
        return Counters(*(self.random.choice((0, 1, 4294967295)) for _ in Counters._fields))

    def shows(self) -> List[List[str]]:
        """Returns the answers about neighbors, counters and settings."""
        ports = self.ports()
        names = [port.name for port in ports]
        statuses = {name: self.random.choice(STATUSES) for name in names}
        settings = Configuration(30, 4, 121, 2, 4, 5, 32, statuses)
        return [lines_of(Show(ports=ports)),
                lines_of(Show(counters={name: self.counters() for name in names})),
                lines_of(Show(configuration=settings))]

    def spoiled(self, lines: Sequence[str]) -> List[str]:
        """Returns the lines with one that is lost, doubled, cut or replaced."""
        found = list(lines)
        place = self.random.randrange(len(found) + 1)
        word = self.random.choice(WORDS)
        line = found[place] if place < len(found) else word
        other = self.random.choice(([], [line, line], [line[:-2]], [word], [line + "0"],
                                    [line.replace(".", "", 1)], [line.replace("=", "", 1)]))
        found[place:place + 1] = other
        return found
