"""Tests that the address of what is above and on a port is announced before that of docker0, in the
arrangements of bridges, bonds, VLANs and macvlans that hosts have. (cargo tests the order in all
arrangements, also for kinds of interfaces that this kernel lacks.)"""

import subprocess
import unittest

from patience import SECONDS
from replaced import address_in
from running_live import OnLinks
from wires import ip

ADDRESS = "192.0.2.9"
# Each step adds an interface, as `ip link add` has it, or sets one, after a `!`. The last interface
# that is added has the address.
ARRANGEMENTS = {
    "a bridge": ["br0 type bridge", "!eth0 master br0"],
    "a VLAN": ["v5 link eth0 type vlan id 5"],
    "a macvlan": ["m0 link eth0 type macvlan mode bridge"],
    "an ipvlan": ["i0 link eth0 type ipvlan"],
    "a bridge over a VLAN": ["v5 link eth0 type vlan id 5", "br0 type bridge", "!v5 master br0"],
    "a VLAN on a bridge": ["br0 type bridge", "!eth0 master br0", "v5 link br0 type vlan id 5"],
    "a VLAN in a VLAN": ["v5 link eth0 type vlan id 5", "w6 link v5 type vlan id 6"],
    "a macvlan on a VLAN": ["v5 link eth0 type vlan id 5", "m0 link v5 type macvlan"],
    "a bridge over a VLAN in a VLAN": ["v5 link eth0 type vlan id 5", "w6 link v5 type vlan id 6",
                                       "br0 type bridge", "!w6 master br0"],
    "a bridge over a VLAN on a bond": ["b0 type bond", "!eth0 down", "!eth0 master b0", "!eth0 up",
                                       "v5 link b0 type vlan id 5", "br0 type bridge",
                                       "!v5 master br0"],
    "a VLAN on a bridge over a VLAN": ["v5 link eth0 type vlan id 5", "br0 type bridge",
                                       "!v5 master br0", "w6 link br0 type vlan id 6"],
    "a bridge over a macvlan": ["m0 link eth0 type macvlan", "br0 type bridge", "!m0 master br0"],
    "a macvlan on a bridge": ["br0 type bridge", "!eth0 master br0", "m0 link br0 type macvlan"],
    "a macvlan on a bridge over a macvlan": ["m0 link eth0 type macvlan", "br0 type bridge",
                                             "!m0 master br0", "m1 link br0 type macvlan"],
    "a bridge over a macvlan on a bridge": ["br0 type bridge", "!eth0 master br0",
                                            "m0 link br0 type macvlan", "br1 type bridge",
                                            "!m0 master br1"],
    "a macvlan on a bridge over a VLAN": ["v5 link eth0 type vlan id 5", "br0 type bridge",
                                          "!v5 master br0", "m0 link br0 type macvlan"],
}


class Above(OnLinks):
    def setUp(self) -> None:
        super().setUp()
        self.link("add", "docker0", "up", "type", "bridge")
        self.give("172.17.0.1/16", "docker0")

    def link(self, *words: str) -> None:
        ip("-n", self.wires.here, "link", *words)

    def give(self, address: str, name: str) -> None:
        ip("-n", self.wires.here, "address", "add", address, "dev", name)

    def arrange(self, steps: "list[str]") -> str:
        """Makes these interfaces. Returns the name of the last one."""
        last = ""
        for step in steps:
            words = step.lstrip("!").split()
            if step.startswith("!"):
                self.link("set", *words)
            else:
                last, kind = words[0], words[words.index("type") + 1]
                try:
                    self.link("add", *words)
                except subprocess.CalledProcessError as fault:
                    if b"Unknown device type" not in fault.stderr:
                        raise
                    self.skipTest(f"link-{kind}: this kernel has none")
                self.link("set", last, "up")
        return last

    def is_announced(self, what: str) -> None:
        self.give(f"{ADDRESS}/24", self.arrange(ARRANGEMENTS[what]))
        peer = self.peer()
        live = self.live("eth0")
        octets = peer.hears(SECONDS)
        self.assertIsNotNone(octets, live.errors())
        assert octets is not None
        self.assertEqual(address_in(octets), ADDRESS, what)


def of(what: str) -> None:
    """Adds a test of this arrangement."""
    setattr(Above, f"test_{what.replace(' ', '_')}", lambda case: case.is_announced(what))


for each in ARRANGEMENTS:
    of(each)


if __name__ == "__main__":
    unittest.main()
