"""Compares the frame that lldpd sends on an interface with that of lldpa-live, and both with docs/LLDPD.md."""

import re
import subprocess
from typing import Callable, Dict, List, Set

from patience import eventually
from real_lldpd import Lldpd, beside_lldpd
from running_live import OnLinks
from served import REPOSITORY
from wires import ip, tlvs_of

PAGE = REPOSITORY / "docs" / "LLDPD.md"
HEADING = "## What a switch sees\n"
NAMES = {1: "Chassis ID", 2: "Port ID", 3: "Time To Live", 4: "Port Description", 5: "System Name",
         6: "System Description", 7: "System Capabilities"}
OF_FAMILIES = {1: "Management Address, IPv4", 2: "Management Address, IPv6"}
ORGANIZATIONS = {"0080c2": "IEEE 802.1", "00120f": "IEEE 802.3", "0012bb": "LLDP-MED"}
Said = Dict[str, List[bytes]]


def said_in(octets: bytes) -> Said:
    """Returns the bodies of a frame's TLVs by the names that the page has for them."""
    said: Said = {}
    for kind, body in tlvs_of(octets):
        name = NAMES.get(kind) or (OF_FAMILIES[body[1]] if kind == 8 else ORGANIZATIONS[body[:3].hex()])
        said.setdefault(name, []).append(body)
    return said


def rows_of_page() -> Set[str]:
    """Returns the first cells of the page's table."""
    part = PAGE.read_text().split(HEADING)[1].split("\n## ")[0]
    cells = re.findall(r"^\| ([^|]+) \|", part, re.M)
    return set(cells[1:])


@beside_lldpd
class BothOnOneInterface(OnLinks):
    """eth0 has addresses, and eth1 is in a bridge, on a host whose name has a domain."""

    links = 2

    def setUp(self) -> None:
        super().setUp()
        here = self.wires.here
        hosts = self.folder / "hosts"
        hosts.write_text("127.0.0.1 localhost\n127.0.1.1 web17.example.com web17\n")
        name_the_host = f'hostname web17; mount --bind {hosts} /etc/hosts; exec "$@"'
        self.before = ["unshare", "--uts", "--mount", "sh", "-ec", name_the_host, "sh"]
        ip("-n", here, "addr", "add", "192.0.2.1/24", "dev", "eth0")
        ip("-n", here, "addr", "add", "2001:db8::1/64", "dev", "eth0", "nodad")
        ip("-n", here, "link", "add", "br0", "up", "type", "bridge")
        self.wires.set_link("eth1", "master", "br0")

    def heard(self, update: Callable[[], object]) -> Said:
        """Returns what the frame says that goes out at an update."""
        while self.listener.hears(0.01):
            pass  # those that were sent before
        update()
        octets = self.listener.hears()
        assert octets, "no frame"
        return said_in(octets)

    def of_lldpd(self) -> Said:
        lldpd = Lldpd(self.wires.here, self.folder, "-I", "eth0", before=self.before)
        shown = lambda: lldpd.ask("-f", "keyvalue", "show", "chassis")
        try:
            self.assertTrue(eventually(lambda: b"mgmt-ip=2001:db8::1" in shown()), shown())
            return self.heard(lambda: lldpd.tell("update"))
        finally:
            lldpd.close()

    def of_lldpa(self) -> Said:
        live = self.live("eth0", "--", "--role", "bridge", before=self.before)
        eventually(lambda: live.has("local-chassis.name=web17.example.com", "show chassis"))
        return self.heard(lambda: live.ask("update"))

    def differing(self) -> Set[str]:
        """Returns the names of the TLVs that lldpd and lldpa-live do not send alike."""
        self.listener = self.peer()
        theirs, ours = self.of_lldpd(), self.of_lldpa()
        return {name for name in {*theirs, *ours} if theirs.get(name) != ours.get(name)}

    def test_without_an_alias(self) -> None:
        found = self.differing()
        self.assertEqual(found - rows_of_page(), set())
        self.assertEqual(rows_of_page() - found, {"Chassis ID", "Port Description", "IEEE 802.1", "LLDP-MED"})

    def test_with_an_alias(self) -> None:
        self.wires.set_link("eth0", "alias", "uplink")
        found = self.differing()
        self.assertEqual(found - rows_of_page(), set())
        self.assertIn("Port Description", found)

    def test_with_a_vlan_above(self) -> None:
        words = ("ip", "-n", self.wires.here, "link", "add", "link", "eth0", "name", "eth0.5", "up", "type", "vlan")
        if subprocess.run([*words, "id", "5"], capture_output=True, check=False).returncode:
            self.skipTest("link-vlan: a VLAN above the interface")
        found = self.differing()
        self.assertEqual(found - rows_of_page(), set())
        self.assertIn("IEEE 802.1", found)
