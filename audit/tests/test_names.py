"""Tests names as vendors spell them, aliases, members of aggregates, and how names are shown."""
import unittest

from auditing import HEAD, InAFolder, neighbor, run
from lldpa_audit import differs
from lldpa_audit.aliases import read_aliases
from lldpa_audit.names import Aliases, End, Names, Seen, shown, text_of, without_domain
from lldpa_audit.plan import PlanFault
from lldpa_audit.order import natural
from lldpa_audit.spelling import is_aggregate, plain, plain_port

# each list spells one port in all ways that vendors use
PORTS = [
    ["Gi1/0/1", "GigabitEthernet1/0/1", "gi1/0/1", "Gig1/0/1", "GigabitEthernet 1/0/1", "GE1/0/1"],
    ["XGE1/0/2", "XGigabitEthernet1/0/2", "Ten-GigabitEthernet1/0/2", "Te1/0/2"],
    ["25GE1/0/9", "Twenty-FiveGigE1/0/9", "WGE1/0/9", "Twe1/0/9"],
    ["100GE1/0/9", "HundredGigE1/0/9", "HGE1/0/9"], ["40GE1/0/9", "FGE1/0/9", "FortyGigE1/0/9"],
    ["FH0/0/0/0", "FourHundredGigE0/0/0/0"], ["MgmtEth0/RP0/CPU0/0", "Mg0/RP0/CPU0/0"],
    ["Ap1/0/1", "AppGigabitEthernet1/0/1"], ["mgmt0", "Management0", "Ma0"],
    ["ethernet-1/1", "e1-1"], ["ethernet-1/1/2", "e1-1-2"], ["lag 7", "lag7"], ["1/1/1"], ["etp1"],
    ["MGE0/0/0", "M-GigabitEthernet0/0/0"], ["Bridge-Aggregation1", "BAGG1"],
    ["Et1", "Ethernet1", "et1", "ethernet1"],
    ["Et1/1", "Eth1/1", "eth1/1", "Ethernet1/1"],
    ["Te1/1/4", "TenGigabitEthernet1/1/4", "TenGigE1/1/4"],
    ["Twe1/0/3", "TwentyFiveGigE1/0/3"],
    ["Tw1/0/3", "TwoGigabitEthernet1/0/3"],
    ["Fo1/1/1", "FortyGigabitEthernet1/1/1", "FortyGigE1/1/1"],
    ["Hu0/0/0/1", "HundredGigE0/0/0/1", "HundredGigabitEthernet0/0/0/1"],
    ["Fa0/1", "FastEthernet0/1"],
    ["Po12", "Port-channel12", "port-channel12"],
    ["Ma1", "Management1"],
    ["xe-0/0/1", "xe-0/0/1.0"],
    ["et-0/0/0:1", "et-0/0/0:1.0"],
    ["ae3", "ae3.0"],
    ["eth0"], ["Ethernet0", "Et0"], ["xe-0/0/1.10"], ["ge-0/0/1"], ["Te1/1/4.7"], ["swp1"], ["p 1"],
    ["1"], ["Gi"], ["Gi1/0/10"],
]

ADDRESSES = [
    ["02:00:5e:00:53:02", "02-00-5E-00-53-02", "0200.5e00.5302", "02005E005302"],
    ["192.0.2.1"], ["192.0.2.10"], ["192.0.2.300"],
    ["fe80::1", "FE80::1", "fe80:0:0:0:0:0:0:1", "fe80:0000:0000:0000:0000:0000:0000:0001"],
    ["::ffff:192.0.2.1", "::FFFF:c000:201"],
    ["caf\xe9", "cafe\u0301"], ["cafe"], ["a:b"], ["02:00:5e:00:53"], ["0200.5e00"],
]


class Spelling(unittest.TestCase):
    """Checks that all spellings of a name are equal, and that different names are not."""

    def test_ports_and_addresses(self) -> None:
        for groups, rule in ((PORTS, plain_port), (ADDRESSES, plain), (ADDRESSES, plain_port)):
            keys = [{rule(name) for name in group} for group in groups]
            self.assertEqual([len(some) for some in keys], [1] * len(groups), keys)
            self.assertEqual(len(set().union(*keys)), len(groups), keys)

    def test_aggregates(self) -> None:
        for name in ("bond0", "Port-channel12", "Po1", "ae3", "ae3.0", "Bundle-Ether10", "team1",
                     "lag 7", "Trk2", "Eth-Trunk1", "Bridge-Aggregation1"):
            self.assertTrue(is_aggregate(name), name)
        for name in ("eth0", "Ethernet1", "bond", "swp1", "1", "po", "ge-0/0/1", "bond0x"):
            self.assertFalse(is_aggregate(name), name)


class Differences(unittest.TestCase):
    """Tests which difference is reported if it alone keeps a neighbor from matching an end."""

    def test_ports_and_addresses(self) -> None:
        for groups, is_port in ((PORTS, True), (ADDRESSES, True), (ADDRESSES, False)):
            for group in groups:
                for name in group[1:]:
                    has = Seen(("b",), (name,)) if is_port else Seen((name,), ("1",))
                    end = End("b", group[0]) if is_port else End(group[0], "1")
                    rules = Names(vendor_names=True)
                    self.assertTrue(rules.answers(has, rules.end(end)), (name, end))
                    is_case = group[0].casefold() == name.casefold()
                    self.assertEqual(differs.Differences(Names()).of_neighbor(has, end),
                                     f"only the {'case' if is_case else 'spelling'} differs")

    def test_several(self) -> None:
        has, end = Seen(("B.x",), ("GigabitEthernet1/0/1",)), End("b", "Gi1/0/1")
        for names, words in ((Names(), "case, domain and spelling differ"),
                             (Names(True), "domain and spelling differ"),
                             (Names(False, True), "case and spelling differ"),
                             (Names(True, True), "the spelling differs"),
                             (Names(False, False, True), "case and domain differ")):
            self.assertEqual(differs.Differences(names).of_neighbor(has, end), f"only {words}")
        for has in (Seen(("b",), ("Gi1/0/1",)), Seen(("b",), ("2",))):
            self.assertIsNone(differs.Differences(Names()).of_neighbor(has, end))

    def test_members_of_an_aggregate(self) -> None:
        bond, end = Seen(("b",), ("bond0",), aggregated=True), End("b", "eth1")
        names = Names(vendor_names=True)
        self.assertTrue(names.answers(bond, end) and names.answers(bond, End("b", "eth2")))
        self.assertEqual(differs.Differences(Names()).of_neighbor(bond, end),
                         "the neighbor announces its aggregate")
        for one in (bond._replace(aggregated=False), bond._replace(ports=("eth9",))):
            self.assertFalse(names.answers(one, end))
        self.assertFalse(names.answers(bond, End("c", "eth1")))

    def test_domains(self) -> None:
        names = Names(short_names=True).with_domains_of(["sw1.dc1", "a.x", "b"])
        for name, hosts in (("sw1.dc1", ["sw1.dc1"]), ("sw1.dc9", []), ("a", ["a.x"]),
                            ("b.y", ["b"]), ("sw1", ["sw1.dc1"]), ("a.y", []),
                            ("a.x", ["a.x"])):
            found = [host for host in ("sw1.dc1", "a.x", "b")
                     if names.answers(Seen((name,), ("1",)), names.end(End(host, "1")))]
            self.assertEqual(found, hosts, name)


class FurtherNames(InAFolder):
    def aliases(self, text: str) -> Aliases:
        return read_aliases(self.file("aliases", text), Names())

    def test_rows(self) -> None:
        aliases = self.aliases("host,port,alias\n# ours\nhost01,,srv-17\nhost01,eth0,LOM1\n"
                               "host02,eth0,bond0\nhost02,eth1,bond0\n,uplink,49\n")
        names = Names(aliases=aliases)
        for one, end, answers in (
                (Seen(("srv-17",), ("eth0",)), End("host01", "eth0"), True),
                (Seen(("srv-17",), ("LOM1",)), End("host01", "eth0"), True),
                (Seen(("host02",), ("LOM1",)), End("host02", "eth0"), False),
                (Seen(("host02",), ("bond0",)), End("host02", "eth0"), True),
                (Seen(("host02",), ("bond0",)), End("host02", "eth1"), True),
                (Seen(("host02",), ("bond0",)), End("host02", "eth2"), False),
                (Seen(("any",), ("49",)), End("any", "uplink"), True)):
            self.assertEqual(names.answers(one, names.end(end)), answers, one)
        self.assertEqual(names.end(End("srv-17", "LOM1")), End("host01", "eth0"))
        self.assertEqual(names.end(End("host02", "bond0")), End("host02", "bond0"))
        self.assertEqual(list(names.ends(Seen(("host02",), ("bond0",)))),
                         [End("host02", "eth0"), End("host02", "eth1")])

    def test_faults(self) -> None:
        for text, said in (("host,port\n", "line 1: the header must be host,port,alias"),
                           ("host,port,alias\n,,x\n", "line 2: it must be host,port,alias; "),
                           ("host,port,alias\na,1,\n", "line 2: it must be host,port,alias; "),
                           ("host,port,alias\na,,x\nb,,x\n", "line 3: x is an alias of two hosts"),
                           ("host,port,alias\na,,b\nb,,c\n", "b is an alias itself, so it cannot")):
            with self.assertRaisesRegex(PlanFault, said):
                self.aliases(text)

    def test_program(self) -> None:
        for port, port_id, aliases, words, said in (
                ("Gi0/1", "GigabitEthernet0/1", "host01,,srv-17", "--vendor-names", "1 right"),
                ("Gi0/1", "GigabitEthernet0/1", "host01,,srv-17", "", "only the spelling differs"),
                ("ETH0", "eth0", "host01,,srv-17", "--ignore-case", "1 right"),
                ("ETH0", "eth0", "host01,,srv-17", "--ignore-case --vendor-names", "1 right"),
                ("ETH0", "Ethernet0", "host01,,srv-17", "--ignore-case --vendor-names", " wrong: "),
                ("p1", "Ethernet0", "host01,,srv-17\nsrv-17,p1,Ethernet0", "", "1 right"),
                ("Gi0/1", "UPLINK", "HOST01.lab,,srv-17.x\nHOST01.lab,GI0/1,Uplink",
                 "--ignore-case --vendor-names --short-names", "1 right")):
            plan = self.file("p", f"{HEAD}leaf1,p,host01,{port}\n")
            show = self.file("leaf1", neighbor("p", "srv-17", port_id))
            file = self.file("aliases", f"host,port,alias\n{aliases}\n")
            self.assertIn(said, run(plan, show, "--aliases", file, *words.split()).stdout)


class Shown(unittest.TestCase):
    """Tests how names are shown and ordered."""

    def test_names(self) -> None:
        for name, short in (("a.b.c", "a"), ("a", "a"), (".a", ".a"), ("10.0.0.1", "10.0.0.1"),
                            ("fe80::1", "fe80::1"), ("10.0.0.1.x", "10")):
            self.assertEqual(without_domain(name), short)
        for name, text in (("a", "a"), ("a b", '"a b"'), ("", '""'), ("\x1b[2J", "\\x1b[2J"),
                           ("caf\xe9", "caf\xe9"), ("\udcff", "\\xff"),
                           ("\u202e", "\\xe2\\x80\\xae"), ("\ud800", "\\xed\\xa0\\x80")):
            self.assertEqual(shown(name), text)
        for name, text in (("caf\xe9", "caf\xe9"), ("a\udcff", "a\\xff"), ("\x1b", "\x1b"),
                           ("\ud800x", "\\xed\\xa0\\x80x")):
            self.assertEqual(text_of(name), text)
            text_of(name).encode()

    def test_order_of_numbers_of_any_length(self) -> None:
        names = ["swp2", "swp10", "swp9" + "0" * 5000, "swp1" + "0" * 5001, "swq"]
        for order in (names, names[::-1]):
            self.assertEqual(sorted(order, key=natural), names)
        self.assertEqual(natural("007"), natural("7"))
