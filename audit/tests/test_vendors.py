"""Tests lists of neighbors in each form, and what is read from them."""
import json
import unittest
from typing import Any, Dict, List, Sequence, Tuple

import lldpd_heard
import vendors
from lldpa import Agent
from lldpa_audit.names import NAMELESS, Seen
from lldpa_audit.seen.files import placed
from lldpa_audit.seen.forms import read_list
from lldpa_audit.seen.listing import Listing
from lldpa_audit.seen.shows import read_ports
from served import PROGRAM
from vendors import PORTS

ROW = {"local_interface": "Gi1/0/1", "neighbor_name": "host01", "neighbor_interface": "eth0"}
JUNOS_BY_NAME = {"lldp-neighbors-information": [{"lldp-neighbor-information": [{
    "lldp-local-interface": [{"data": "xe-0/0/1"}], "lldp-local-port-id": [{"data": "510"}],
    "lldp-remote-chassis-id": [{"data": "02:00:00:00:00:01"}],
    "lldp-remote-port-id-subtype": [{"data": "Interface name"}],
    "lldp-remote-port-id": [{"data": "eth0"}]}]}]}

# the names of each neighbor that a real lldpd heard at swp1, worked out by hand from the frames
HEARD = [
    (("ho\\01 st\xe9", "02:00:00:00:00:01"), ("eth1", 'to "x" \\ y')),
    (("c", "02:00:00:00:00:03"), ("eth3",)),
    (("d", "02:00:00:00:00:04"), ("eth4", "port four")),
    (("02:00:00:00:00:05",), ("eth5",)),
    (("id", "02:00:00:00:00:06"), ("eth6",)),
    (("ips", "192.0.2.7"), ("192.0.2.8",)),
    (("ip6", "::1", "0000:0000:0000:0000:0000:0000:0000:0001"), ("eth8",)),
    (("loc", "loc al"), ("12",)),
    (("comp", "02:00:00:00:00:0a", "192.0.2.9", "2001:db8::1",
      "2001:0db8:0000:0000:0000:0000:0000:0001"), (" 10",)),
    (("alias",), ("palias",)),
    (("value", "ifn"), ("02:00:00:00:00:0c",)),
    (("x=y\ttab<&>", "zz"), ("e=f",)),
]
JSON0 = lldpd_heard.sample("clean", "json0").decode()


def read(tree: Any) -> Listing:
    """Reads a list of neighbors from octets, a text or a JSON value."""
    text = tree if isinstance(tree, (bytes, str)) else json.dumps(tree)
    return read_list(text if isinstance(text, bytes) else text.encode())


def names_of(listing: Listing) -> Dict[str, List[Tuple[str, str]]]:
    """Returns for each port the neighbors, each as its first host name and its first port name."""
    return {port: [(one.hosts[0], one.ports[0]) for one in some]
            for port, some in listing.ports.items()}


class Forms(unittest.TestCase):
    def test_each_form(self) -> None:
        for form, write in vendors.FORMS.items():
            with self.subTest(form=form):
                listing = read(write(PORTS))
                self.assertTrue(listing.has_all_heard)
                self.assertEqual(names_of(listing), PORTS)
                first = listing.ports["swp1"][0]
                self.assertEqual((first.chassis, first.is_named),
                                 (vendors.chassis_of("host01"), True))
                self.assertEqual((first.ports, first.aggregated), (("eth0", vendors.TO), False))
                self.assertEqual(len(read(write({"swp1": [("a", "b")]})).ports), 1)

    def test_names_of_neighbors(self) -> None:
        """Checks the names of the first neighbor in each list."""
        for tree, hosts, ports in (
                ({"a": [{"remote_chassis_id": "8c60.4f69.e96c", "remote_system_name": "switch",
                         "remote_port": "Eth2/2/1", "remote_port_description": "Ethernet2/2/1"}]},
                 ("switch", "8c60.4f69.e96c"), ("Eth2/2/1", "Ethernet2/2/1")),
                ({"a": [{"remote_chassis_id": "02:00:5e:00:53:01", "remote_system_name": "",
                         "remote_port": "511", "remote_port_description": "ge-0/0/3"}]},
                 ("02:00:5e:00:53:01",), ("ge-0/0/3", "511")),
                ({"a": [{"remote_chassis_id": "02:00:5e:00:53:02", "remote_system_name": "phone",
                         "remote_port": "N/A", "remote_port_description": "port 1"}]},
                 ("phone", "02:00:5e:00:53:02"), ("port 1",)),
                ({"a": [{"hostname": "b", "port": 7}]}, ("b",), ("7",)),
                ({"a": [{"hostname": "caf\udce9", "port": "\ud800"}]}, ("caf\udce9",), ("\ufffd",)),
                ([ROW], ("host01",), ("eth0", "eth0")),
                ([{"NEIGHBOR": "host01", "LOCAL_INTERFACE": "Gi1", "NEIGHBOR_PORT_ID": "eth0"}],
                 ("host01",), ("eth0",)),
                (JUNOS_BY_NAME, ("02:00:00:00:00:01",), ("eth0",))):
            with self.subTest(tree=tree):
                first = next(iter(read(tree).ports.values()))[0]
                self.assertEqual((first.hosts, first.ports), (hosts, ports))
        self.assertEqual(list(read(JUNOS_BY_NAME).ports), ["xe-0/0/1"])

    def test_nobody_is_heard(self) -> None:
        for tree in ({}, {"lldpNeighbors": {}}, {"lldp": {}}, {"get_lldp_neighbors": {}},
                     {"result": True, "out": {}}, *(lldpd_heard.sample("none", form)
                                                    for form in ("json", "json0"))):
            self.assertEqual(read(tree), Listing({}, True), tree)

    def test_aggregates_of_eos(self) -> None:
        text = json.dumps(vendors.EOS).replace('"linkAggregationInterfaceId": 0',
                                               '"linkAggregationInterfaceId": 1000007')
        first = read(text).ports["swp1"][0]
        self.assertTrue(first.aggregated)

    def test_walk_of_a_real_lldpd(self) -> None:
        listing = read(vendors.WALK.read_bytes())
        self.assertEqual(names_of(listing), {"swp1": [("host01", "eth1")],
                                             "swp2": [("host01", "eth2")], "swp3": []})
        self.assertEqual([one.port_id for some in listing.ports.values() for one in some],
                         ["caf \xe9", "6e:93:3e:fb:28:db"])


class Lldpcli(unittest.TestCase):
    """Checks how lldpcli's output for a real lldpd is read, and our agent's for the same frames."""

    def check(self, seen: Sequence[Seen]) -> None:
        self.assertEqual([(set(one.hosts), set(one.ports)) for one in seen],
                         [(set(hosts), set(ports)) for hosts, ports in HEARD])
        self.assertEqual([at for at, one in enumerate(seen) if one.aggregated], [2])

    def test_each_form(self) -> None:
        for form in ("json", "json0"):
            with self.subTest(form=form):
                listing = read(lldpd_heard.sample("clean", form))
                self.assertTrue(listing.has_all_heard)
                self.assertEqual(list(listing.ports), ["swp1", "swp2"])
                self.assertEqual([(one.hosts, one.ports) for one in listing.ports["swp1"]], HEARD)
                self.assertEqual(listing.ports["swp2"], listing.ports["swp1"][:1])
                self.check(listing.ports["swp1"])

    def test_our_show_says_the_same(self) -> None:
        with Agent.start(["swp1"], PROGRAM, receive_only=True) as agent:
            for octets in lldpd_heard.CLEAN:
                agent.frame("swp1", octets)
            ours = read_ports("\n".join([*agent.ask("show neighbors"), ""]))["swp1"]
        self.check(ours)

    def test_odd_names(self) -> None:
        """Checks names that are not UTF-8, and surrogates that do not stand for an octet."""
        for octets, hosts in ((lldpd_heard.sample("odd", "json"), ["caf\udce9", "a\x01b"]),
                              (lldpd_heard.sample("odd", "json0"), ["caf\ufffd", "a\x01b"]),
                              (JSON0.replace('"d"', '"\\ud800d\\udcff"'), ["\ufffdd\ufffd"])):
            found = [one.hosts[0] for one in read(octets).ports["swp1"]]
            self.assertEqual([host for host in found if host in hosts], hosts)

    def test_both_protocols_of_one_neighbor(self) -> None:
        lldp = json.loads(JSON0)["lldp"][0]["interface"][-1]
        cdp = json.loads(json.dumps(lldp).replace('"LLDP"', '"CDPv2"').replace("02:00", "03:00"))
        other = json.loads(json.dumps(cdp).replace('"ho', '"so'))
        for heard, count in (([lldp, cdp], 1), ([cdp, lldp], 1), ([cdp], 1), ([lldp, lldp], 2),
                             ([lldp, other], 2)):
            tree = {"lldp": [{"interface": heard}]}
            self.assertEqual(len(read(tree).ports["swp2"]), count)

    def test_numbers_of_many_digits(self) -> None:
        for form, number in (("json", "9216"), ("json0", "9216"), ("json", "120")):
            text = lldpd_heard.sample("clean", form).decode()
            self.assertIn(f'"{number}"', text)
            listing = read(text.replace(f'"{number}"', "9" * 5000))
            self.assertEqual([(one.hosts, one.ports) for one in listing.ports["swp1"]], HEARD)


def metric(instance: str, port: str, of: str, value: str = "1", **labels: str) -> Any:
    return {"metric": {"__name__": of, "instance": instance, "port": port, **labels},
            "value": [1700000000.5, value]}


def neighbor(instance: str, port: str, host: str, **labels: str) -> Any:
    return metric(instance, port, "lldpa_neighbor_info", chassis="02:00:00:00:00:01", name=host,
                  **{"port_id_kind": "ifname", "port_id": "eth0", "management": "", **labels})


def answer(*result: Any) -> Listing:
    """Reads an answer of Prometheus' API with these series."""
    return read({"status": "success", "data": {"resultType": "vector", "result": list(result)}})


class Prometheus(unittest.TestCase):
    def test_neighbors_alone(self) -> None:
        listing = answer(neighbor("leaf1:9100", "swp1", "h1"), neighbor("leaf1:9200", "swp1", "h1"),
                         neighbor("[2001:db8::1]:9100", "p", "h2"))
        self.assertEqual({host: names_of(one) for host, one in listing.hosts.items()}, {
            "leaf1": {"swp1": [("h1", "eth0")]}, "2001:db8::1": {"p": [("h2", "eth0")]}})
        self.assertTrue(listing.hosts["leaf1"].has_all_heard)

    def test_ports_and_times(self) -> None:
        files = {"/x/lldpa.prom": "1700000000", "/x/lldpa_audit.prom": "3"}
        listing = answer(
            metric("a:1", "p", "lldpa_too_many", "0"), metric("a:1", "q", "lldpa_too_many", "1"),
            *(metric("a:1", "", "node_textfile_mtime_seconds", value, file=file)
              for file, value in files.items()))
        self.assertEqual(listing.hosts, {"a": Listing({"p": (), "q": (NAMELESS,)}, False,
                                                      time=1700000000.0)})
        self.assertEqual(placed(listing, "file", 5.0).hosts["a"].time, 1700000000.0)

    def test_labels(self) -> None:
        labels = {"management": "2001:0db8:0000:0000:0000:0000:0000:0001", "exported_name": "c",
                  "port_descr": "to b", "neighbor_port": "q"}  # the last one is not exported_port
        first, second, third = answer(
            neighbor("a:1", "p", "x", **labels),
            neighbor("a:1", "p", "caf\\xc3\\xa9\\\\"),
            neighbor("a:1", "p", "caf\xe9\ud800\\", port_id="\\x")).hosts["a"].ports["p"]
        self.assertEqual(first.hosts, ("c", "02:00:00:00:00:01", labels["management"],
                                       "2001:db8::1"))
        self.assertEqual(first.ports, ("eth0", "to b"))
        self.assertEqual(second.hosts[0], "caf\xe9\\")
        self.assertEqual((third.hosts[0], third.ports[0]), ("caf\xe9\ufffd\\", "\\x"))
