"""Defines the contents of `show` output: ports, neighbors, counters, this host and the settings.

Texts stay escaped as the agent shows them, so they are safe to print. `show.unescaped` returns the
octets of a text.
"""
# no `from __future__ import annotations`: it would make `typing` compile each field's annotation
import re
from typing import Dict, List, Mapping, NamedTuple, Optional, Tuple

# the keys of a neighbor's optional lines, except the keys that contain the number of a TLV
SAID_KEYS = ("port.descr", "chassis.name", "chassis.descr", "chassis.caps", "chassis.mgmt")

# EARLIER matches the keys of the four lines that every neighbor has once. FURTHER_KEY matches other
# keys, perhaps of a newer agent, unless their first word is `org` or `unknown`.
EARLIER = (r"(?:ttl|expires|(?:chassis|port)\.(?:mac|ip|ifname|ifalias|local|component|portcomp"
           r"|circuit|unhandled))(?:=|$)")
FURTHER_KEY = rf"(?!{EARLIER}|(?:org|unknown)(?:\.|=|$))[a-z][a-z0-9-]*(?:\.[a-z0-9-]+)*"

# patterns for a key with the number of a TLV, and for any key of a neighbor's optional lines
NUMBERED_KEY = r"(?:unknown\.[1-9][0-9]{0,2}|org\.[0-9a-f]{6}\.(?:0|[1-9][0-9]{0,2}))"
SAID_KEY = rf"(?:{'|'.join(map(re.escape, SAID_KEYS))}|{NUMBERED_KEY}|{FURTHER_KEY})"


class Identifier(NamedTuple):
    """A chassis ID or port ID: its kind, such as `mac` or `ifname`, and its text."""
    kind: str
    text: str

    def __str__(self) -> str:
        return f"{self.kind}={self.text}"


def capabilities_in(text: str) -> Dict[str, bool]:
    """Returns whether each capability in a text such as `Bridge:on,Router:off` is on."""
    parts = (part.rpartition(":") for part in text.split(",") if part)
    return {name: state == "on" for name, _, state in parts}


class Neighbor(NamedTuple):
    """A neighbor of a port. `place` (from 1) can change when another neighbor leaves; `id` cannot.

    `ttl` is the time to live that the neighbor sent, and `expires` is the time left, both in
    seconds. `said` has the key and the value of each optional line, in the order of the lines.
    Lines with unknown keys are included.
    """
    port: str
    place: int
    chassis: Identifier
    port_id: Identifier
    ttl: int
    expires: int
    said: Tuple[Tuple[str, str], ...] = ()

    @property
    def id(self) -> str:
        """Returns the MSAP identifier: chassis ID, space, port ID. Spaces in an ID are escaped."""
        parts = (self.chassis, self.port_id)
        return " ".join(str(part).replace(" ", "\\x20") for part in parts)

    @property
    def name(self) -> Optional[str]:
        """Returns the System Name, or None if none was sent."""
        return self._first("chassis.name")

    @property
    def descr(self) -> Optional[str]:
        """Returns the System Description, or None if none was sent."""
        return self._first("chassis.descr")

    @property
    def port_descr(self) -> Optional[str]:
        """Returns the Port Description, or None if none was sent."""
        return self._first("port.descr")

    @property
    def capabilities(self) -> Optional[Mapping[str, bool]]:
        """Returns whether each capability, such as `Bridge`, is on, or None if none were sent."""
        text = self._first("chassis.caps")
        return None if text is None else capabilities_in(text)

    @property
    def management(self) -> Tuple[str, ...]:
        """Returns the management addresses, without the other fields of their lines."""
        return tuple(text.partition(",")[0] for key, text in self.said if key == "chassis.mgmt")

    @property
    def org(self) -> Tuple[Tuple[str, str], ...]:
        """Returns each organizationally specific TLV: a kind like `00120f.1`, and octets in hex."""
        return tuple((key[4:], text) for key, text in self.said if key.startswith("org."))

    @property
    def unknown(self) -> Tuple[Tuple[int, str], ...]:
        """Returns the TLVs of reserved types: the type, and the octets in hexadecimal."""
        found = ((key.split("."), text) for key, text in self.said)
        return tuple((int(words[1]), text) for words, text in found if words[0] == "unknown")

    def _first(self, key: str) -> Optional[str]:
        return next((text for name, text in self.said if name == key), None)


class Port(NamedTuple):
    """A port and its neighbors, in the order of the port's table.

    `octets` is the size of all data stored about the neighbors. `too_many` is true while a
    neighbor that was dropped for lack of room would still be present.
    """
    name: str
    neighbors_held: int
    octets: int
    too_many: bool
    neighbors: Tuple[Neighbor, ...] = ()


class Counters(NamedTuple):
    """A port's counters, which lldpa(1) describes. After 4,294,967,295 each begins again at 0."""
    sent: int
    shutdowns: int
    received: int
    discarded: int
    errors: int
    tlvs_discarded: int
    unrecognized: int
    ageouts: int
    drops: int


NO_COUNTERS: Mapping[str, Counters] = {}


class LocalChassis(NamedTuple):
    """This host as the agent announces it. `mgmt` is None if no management address is announced."""
    mac: str
    name: str
    descr: str
    caps: str
    mgmt: Optional[str] = None


class Configuration(NamedTuple):
    """The current settings, and the status of each port by its name."""
    tx_interval: int
    tx_hold: int
    ttl: int
    reinit_delay: int
    tx_fast_init: int
    tx_credit_max: int
    max_neighbors: int
    statuses: Mapping[str, str]


class Show(NamedTuple):
    """The output of one or several `show` commands. Parts that were not shown are empty or None."""
    ports: Tuple[Port, ...] = ()
    counters: Mapping[str, Counters] = NO_COUNTERS
    chassis: Optional[LocalChassis] = None
    configuration: Optional[Configuration] = None

    @property
    def neighbors(self) -> List[Neighbor]:
        """Returns the neighbors of all ports, one port after another."""
        return [neighbor for port in self.ports for neighbor in port.neighbors]
