"""Tests damaged lists of neighbors and other files: each has a fault that says what is wrong."""
import copy
import gzip
import json
import os
import random
import re
import tempfile
import unittest
from itertools import product
from typing import Any, Iterator, Optional, Tuple

import lldpd_heard
import table_forms
import vendors
from lldpa.agent.show import ShowFault
from lldpa_audit.seen.files import MOST_OCTETS, read_file
from lldpa_audit.seen.forms import read_list
from lldpa_audit.seen.listing import Listing, SeenFault
from lldpa_audit.what import What
from test_vendors import read
from vendors import PORTS

WHOLE = {**{form: write(PORTS).rstrip().encode() for form, write in vendors.FORMS.items()},
         **{form: lldpd_heard.sample("clean", form).rstrip() for form in ("json", "json0")}}
# set LLDPA_DAMAGED=1 to try more
IS_LONG = "LLDPA_DAMAGED" in os.environ
DAMAGED, EXCHANGED, STEP = (30_000, 60_000, 1) if IS_LONG else (2000, 2000, 5)
TREES = [*(write(PORTS) for write in vendors.OF_JSON), *table_forms.READ.values(),
         *table_forms.OF_SOME_PORTS.values(), *table_forms.MANY.values(),
         json.loads(lldpd_heard.sample("clean", "json0")),
         json.loads(vendors.PROMETHEUS.read_bytes())]
if IS_LONG:
    WHOLE.update({f"tree {at}": json.dumps(tree).encode() for at, tree in enumerate(TREES)})
# what each neighbor must have: names in JSON, and lines in other forms
NEEDED = {"chassisId", "chassis_id", "port_id", "l_port_id", "lldp-local-port-id",
          "lldp-remote-chassis-id", "lldp-remote-port-id", "chassis-id", "ChassisID", "PortID",
          "InterfaceName", "neighborInterfaceInfo", "chassis", "port", "lldpNeighborInfo",
          "port-id"}
NEEDED_LINES = re.compile(r"<lldp-(?:local-port-id|remote-chassis-id|remote-port-id)>.*\n|"
                          r"iso.0.8802.1.1.2.1.(?:3.7.1.3|4.1.1.[567])\..*\n")


def fault_of(octets: bytes) -> Optional[str]:
    """Returns why a list, or one of its ports, is refused, or None if all is read. Any other
    exception fails the test."""
    try:
        return next(iter(read_list(octets).reasons.values()), None)
    except (SeenFault, ShowFault) as fault:
        return str(fault)


def in_a_file(octets: bytes) -> Optional[Listing]:
    """Reads a file of these octets."""
    with tempfile.NamedTemporaryFile() as file:
        file.write(octets)
        file.flush()
        return read_file(What("", "", file.name))


def without_one(tree: Any) -> Iterator[Any]:
    """Yields copies of a JSON value, each without one of the fields that are needed."""
    if isinstance(tree, dict):
        for name, inner in tree.items():
            if name in NEEDED:
                yield {key: value for key, value in tree.items() if key != name}
            for one in without_one(inner):
                yield {**tree, name: one}
    elif isinstance(tree, list):
        for at, inner in enumerate(tree):
            for one in without_one(inner):
                yield [*tree[:at], one, *tree[at + 1:]]


def places_in(tree: Any) -> Iterator[Tuple[Any, Any]]:
    """Yields each place in a JSON value: an object or a list, and a name or a place in it."""
    for key, part in list(tree.items() if isinstance(tree, dict) else enumerate(tree)):
        yield tree, key
        if isinstance(part, (dict, list)):
            yield from places_in(part)


class Faults(unittest.TestCase):
    """Checks that damage is reported as a fault, and never raises another exception."""

    def test_of_something_else(self) -> None:
        interface = b'{"lldp":{"interface":{"a":{"status":"RX","chassis":{},"port":{}}}}}'
        for octets, said in (
                (interface, "'a' has a neighbor without a protocol: use `lldpcli -f json show"),
                (b'{"lldp":[{"interface":[{"name":"a","via":"LLDP"}]}]}', "without chassis id"),
                (b"lldp.a.status=RX\n", "the output of another show command"),
                (b'{"lldp": ' + b"9" * 5000 + b"}", "it is JSON with the names lldp, not a known"),
                (b'{"swp1": []}\n{"swp2": []}', "more than a prompt follows its JSON"),
                (b"<rpc-reply>\xff</rpc-reply>", "it is not valid XML: "),
                (b"<?xml version='1.0' encoding='x'?><rpc-reply/>", "not a known list"),
                (b"<?xml version='1.0' encoding='utf-16'?><rpc-reply>&a;", "undefined entity")):
            self.assertIn(said, fault_of(octets) or "", octets)

    def test_the_other_forms_of_lldpcli(self) -> None:
        for form in ("keyvalue", "xml", "plain"):
            for name in ("clean", "none", "odd"):
                octets = lldpd_heard.sample(name, form)
                self.assertIn("use `lldpcli -f json" if octets else "it is empty",
                              fault_of(octets) or "", (name, form))

    def test_what_is_needed(self) -> None:
        for write in vendors.OF_JSON:
            if write in (vendors.napalm, vendors.textfsm):
                continue
            cut = list(without_one(write(PORTS)))
            self.assertGreater(len(cut), 3, write)
            for tree in cut:
                with self.subTest(form=write.__name__, tree=tree):
                    self.assertRaises(SeenFault, read, tree)
        for text in (vendors.XML, vendors.walk(PORTS)):
            for found in NEEDED_LINES.finditer(text):
                with self.subTest(line=found[0]):
                    self.assertRaises(SeenFault, read, text[:found.start()] + text[found.end():])

    def test_cut_short(self) -> None:
        """Checks samples that are cut at each octet, or in the gate at each fifth one."""
        for form, octets in WHOLE.items():
            begin = len(octets) // 3 if form == "walk" else 1  # its first third has no neighbors
            for end in range(begin, len(octets), STEP):
                self.assertIsNotNone(fault_of(octets[:end]), (form, end))

    def test_random_damage(self) -> None:
        rng, faults = random.Random(44), 0
        for _ in range(DAMAGED):
            octets = bytearray(rng.choice(list(WHOLE.values())))
            for _ in range(rng.choice([1, 1, 3, 40])):
                at = rng.randrange(len(octets))
                octets[at:at + rng.choice([0, 1, 1, 9])] = rng.choice(
                    [b"", b"\xff", b'"', b"{", b"<", b"\n", b"]", bytes([rng.randrange(256)])])
            faults += fault_of(bytes(octets)) is not None
        self.assertGreater(faults, DAMAGED // 10)
        self.assertLess(faults, DAMAGED)

    def test_nested(self) -> None:
        """Checks that a list inside another object, or in a list, is read or refused."""
        names = ("data", "result", "rpc-reply", "lldp", "interface", "Neighbors", "stdout", "x")
        is_read = set()
        for tree in TREES if IS_LONG else TREES[::4]:
            for one, other in product(names, names):
                for nested in ({one: tree}, [tree, {one: tree}], {one: {other: tree}},
                               {one: [{other: [tree]}]}, {one: tree, other: [tree]}):
                    is_read.add(fault_of(json.dumps(nested).encode()) is None)
        self.assertEqual(is_read, {True, False})
        is_read.clear()
        for inner in (vendors.XML, "<data/>", "<lldp-neighbors-information/>"):
            for name in (*names, "multi-routing-engine-item", "lldp-neighbor-information"):
                if name != "x":
                    is_read.add(fault_of(f"<rpc-reply><{name}>{inner}</{name}></rpc-reply>".encode()) is None)
        self.assertEqual(is_read, {True, False})

    def test_exchanged_between_forms(self) -> None:
        """Checks that lists with parts of other forms are read or refused."""
        rng, faults = random.Random(17), 0
        for _ in range(EXCHANGED):
            one, other = (copy.deepcopy(tree) for tree in rng.choices(TREES, k=2))
            place, key = rng.choice(list(places_in([one])))
            place[key] = rng.choice([part[at] for part, at in places_in([other])])
            faults += fault_of(json.dumps(one).encode()) is not None
        self.assertGreater(faults, EXCHANGED // 10)
        self.assertLess(faults, EXCHANGED)

    def test_parts_too_deep_in_one_another(self) -> None:
        for octets in (b"[" * 200000, b'{"lldp":' * 200000, b"<rpc-reply>" * 200000):
            self.assertIsNotNone(fault_of(octets))

    def test_no_entity_expands(self) -> None:
        ten = "".join(f'<!ENTITY e{at + 1} "{f"&e{at};" * 10}">' for at in range(20))
        for inner in (ten, '<!ENTITY x SYSTEM "file:///etc/passwd">', ""):
            entities = f'<!DOCTYPE rpc-reply [<!ENTITY e0 "ten">{inner}]>'
            text = f'<?xml version="1.0"?>{entities}<rpc-reply>&e20;'
            self.assertIn("it is XML, but not a known", fault_of(text.encode()) or "")

    def test_compressed(self) -> None:
        packed = gzip.compress(WHOLE["json0"])
        for octets, fault in ((packed[:-9], "cut short"), (packed[:2] + WHOLE["json0"], "damaged"),
                              (gzip.compress(b"x"), "it looks like a switch's plain text")):
            found = in_a_file(octets)
            self.assertIn(fault, found.faults[0] if found else "")

    def test_too_much(self) -> None:
        found = in_a_file(b'{"lldp": {}}' + b" " * (MOST_OCTETS + 1024))
        self.assertIn("the most that a list may have", found.faults[0] if found else "")
