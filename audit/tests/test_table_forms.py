"""Tests lists in forms that no device or tool printed here, files with two lists, and walks."""
import json
import re
import unittest
from typing import Any

import lldpd_heard
import table_forms
import vendors
from lldpa_audit.seen.listing import SeenFault
from table_forms import ESCAPED, OTHER, WANTED
from test_vendors import names_of, read
from vendors import PORTS

WALK = vendors.walk({**PORTS, "swp3": [], "swp4": [("host04", "eth0")]})
COLUMNS = {"3.7.1.2": "LocPortIdSubtype", "3.7.1.3": "LocPortId",
           "4.1.1.4": "RemChassisIdSubtype", "4.1.1.5": "RemChassisId",
           "4.1.1.6": "RemPortIdSubtype", "4.1.1.7": "RemPortId", "4.1.1.8": "RemPortDesc",
           "4.1.1.9": "RemSysName"}
NAMED = re.sub(r"iso\.0\.8802\.1\.1\.2\.1\.([0-9.]{7})\.",
               lambda found: f"LLDP-MIB::lldp{COLUMNS[found[1]]}.", WALK)


class Tables(unittest.TestCase):
    def refused(self, tree: Any, why: str) -> None:
        with self.subTest(tree=tree), self.assertRaises(SeenFault) as raised:
            read(tree)
        self.assertIn(why, str(raised.exception))

    def test_of_one_host(self) -> None:
        for is_whole, forms in ((True, table_forms.READ), (False, table_forms.OF_SOME_PORTS)):
            for name, tree in forms.items():
                with self.subTest(name):
                    listing = read(tree)
                    self.assertEqual(names_of(listing), WANTED)
                    self.assertEqual(listing.has_all_heard, is_whole)
                    self.assertTrue(listing.ports["swp1"][0].is_named)
                    self.assertEqual(listing.source, "leaf1" if "gnmic" in name else "")

    def test_of_many_hosts(self) -> None:
        for name, tree in table_forms.MANY.items():
            with self.subTest(name):
                found = {host: names_of(one) for host, one in read(tree).hosts.items()}
                wanted = {"leaf1": WANTED, "leaf2": {port: [*some] for port, some in OTHER.items()}}
                self.assertEqual(found, wanted)

    def test_escapes_in_names_of_gnmic(self) -> None:
        for end in ("", "/neighbors"):
            listing = read(table_forms.updates(table_forms.by_interface(ESCAPED, end)))
            self.assertEqual(names_of(listing), ESCAPED, end)

    def test_columns_of_templates(self) -> None:
        """Checks each name that a column may have, beside the first names of the other columns."""
        columns = table_forms.OF_TEMPLATES
        for wanted, names in columns.items():
            for name in names:
                row = {some[0]: value for value, some in columns.items() if value != wanted}
                (port, (seen,)), = read([{**row, name: wanted}]).ports.items()
                self.assertIn(wanted, (port, *seen.hosts, *seen.ports), name)

    def test_refused(self) -> None:
        for tree, why in table_forms.REFUSED:
            self.refused(tree, why)

    def test_addresses(self) -> None:
        for tree, addresses in ((table_forms.OF_SR_LINUX, {"10.0.0.1"}),
                                (table_forms.xr(PORTS), {"10.0.0.1", "2001:db8::1"}),
                                (table_forms.suzieq(PORTS), {"10.0.0.1"})):
            listing = read(tree)
            first = next(iter(listing.hosts.values()), listing).ports["swp1"][0]
            self.assertEqual(addresses - {*first.hosts}, set())

    def test_two_lists(self) -> None:
        """Checks that two lists are refused with their places, in the same form or in two."""
        why = "it has 2 lists of neighbors, as entries 1 and 2"
        json0 = json.loads(lldpd_heard.sample("clean", "json0"))
        for write in vendors.OF_JSON:
            for other in (write(OTHER), json0):
                self.refused([write(PORTS), other], why)
                self.refused({"result": [write(PORTS), other]}, why)
        self.refused([json0, json0], why)
        self.refused(f"[{','.join([lldpd_heard.sample('clean', 'json').decode()] * 2)}]", why)
        self.refused([{}, vendors.EOS, {"lldpNeighbors": {}}], "as entries 2 and 3")
        front, rest = vendors.XML.partition("\n")[::2]
        both = "\n".join([front, rest.replace("</rpc-reply>\n", ""), rest])
        self.refused(both, f"{why} of 'lldp-neighbors-information'")


class Walks(unittest.TestCase):
    def test_a_walk_that_stopped(self) -> None:
        """Checks that each port has all its neighbors or none, wherever a walk stops."""
        whole, lines, refused = read(WALK), WALK.splitlines(keepends=True), 0
        for end in range(1, len(lines)):
            for last in ("", "Timeout: No Response from leaf1\n", "snmpbulkwalk: Timeout\n"):
                try:
                    found = read("".join(lines[:end]) + last)
                except SeenFault:
                    refused += 1
                    continue
                self.assertEqual({**found.ports, **dict.fromkeys(found.reasons)}.keys(),
                                 whole.ports.keys())
                self.assertEqual(found.ports, {port: whole.ports[port] for port in found.ports})
                self.assertIn("swp4", found.reasons)
        self.assertEqual(refused, 3 * 12)  # two local columns, and the first of neighbors

    def test_a_message_in_a_walk(self) -> None:
        lines = WALK.splitlines(keepends=True)
        broken = "".join([*lines[:-1], "Timeout: No Response from leaf1\n", lines[-1]])
        self.assertEqual(list(read(broken).reasons), ["swp4"])
        after = "iso.0.8802.1.1.2.1.4.1.1.10.0.4.1 = STRING: \"x\"\n"
        for end in (after, f"{after}Timeout: No Response from leaf1\n",
                    "iso.3.6.1.2.1.1.1.0 = STRING: \"Linux\"\n"):
            self.assertEqual(read(WALK + end), read(WALK), end)
        end = "iso.0.8802.1.1.2.1.4.1.1.9.0.4.1 = No more variables left in this MIB View (It is past"
        self.assertEqual(read(f"{WALK}{end} the end of the MIB tree)\n"), read(WALK))
        # agents may omit the System Name of a neighbor, if the walk goes on
        self.assertEqual(read("".join(lines[:-1]) + after).ports["swp4"][0].hosts,
                         (vendors.chassis_of("host04"),))

    def test_options_of_snmpwalk(self) -> None:
        self.assertEqual(read(NAMED), read(WALK))
        self.assertEqual(read(NAMED.replace("LLDP-MIB::", "")), read(WALK))  # -Os
        self.assertEqual(read("SNMPv2-MIB::sysName.0 = STRING: leaf1\n" + NAMED), read(WALK))
        indexed = re.sub(r"(lldp\w+)\.([0-9.]+) =", lambda found: f"{found[1]}[" + found[2].replace(
            ".", "][") + "] =", NAMED)
        plain = "is not as snmpwalk prints it without options: use `snmpwalk -v2c -c COMMUNITY HOST"
        for text, why in ((indexed, plain),  # -OX
                          (indexed.replace("[0]", "[0:0:00:00.00]"), plain),
                          (WALK.replace(" = STRING: ", " ").replace(" = INTEGER: ", " "), plain),
                          (re.sub(" = [A-Za-z-]+: ", " = ", WALK), "use snmpwalk without -OQ"),
                          ("SNMPv2-MIB::sysName.0 = STRING: leaf1\n", "it has no lldpLocPortId"),
                          (WALK[:WALK.index("iso.0.8802.1.1.2.1.4")], "it ends before the neigh")):
            with self.subTest(why, text=text[:60]), self.assertRaises(SeenFault) as raised:
                read(text)
            self.assertIn(why, str(raised.exception))
