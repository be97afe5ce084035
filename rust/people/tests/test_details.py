"""Tests what lldpa-ctl says of a neighbor, as `details` and as JSON."""

import json
from typing import Any, Sequence, Tuple

from lldpa import Neighbor, Port
from lldpa.agent.show import Identifier, Show, lines_of
from samples import SAMPLES
from served import LIVE_LINES, Program, told_by

ORG = tuple((f"org.{kind}", octets.hex()) for kind, octets in SAMPLES)
# all samples except Link Aggregation of IEEE 802.3 and the shorter ones of Power via MDI
EACH = tuple((key, octets) for key, octets in ORG if key != "org.00120f.3"
             and (key != "org.00120f.2" or len(octets) == 2 * 25))
SWITCH = Neighbor(
    "eth0", 1, Identifier("mac", "02:00:00:00:00:01"), Identifier("mac", "02:00:00:00:00:02"), 120,
    98, (("chassis.name", "caf\\xc3\\xa9-1"), ("port.descr", "swp1"),
         ("chassis.caps", "Bridge:on,Router:off"), ("chassis.mgmt", "192.0.2.2,2,7,"),
         ("chassis.mgmt", "fe80:0000:0000:0000:0000:0000:0000:0001,2,7,"),
         ("org.0080c2.1", "0078"), ("org.0080c2.3", "0078066f6666696365"),
         ("org.00120f.4", "05f2"), ("org.001122.5", "68656c"), ("unknown.9", "00"), ("age", "7")))
CAME = "2026-11-23T19:45:02Z"


class ForPeople(Program):
    def told_of(self, neighbor: Neighbor, *words: str) -> str:
        """Returns what lldpa-ctl prints if this is the only neighbor, at the port eth0."""
        port = Port("eth0", 1, 20, False, (neighbor,))
        with told_by(self.served, lines_of(Show(ports=(port,)))):
            return self.run_ctl(*words)

    def object_of(self, said: Sequence[Tuple[str, str]]) -> Any:
        """Returns a neighbor that said this as an object from JSON."""
        text = self.told_of(SWITCH._replace(said=tuple(said)), "--json", "neighbors")
        self.assertTrue(text.isascii())
        self.assertEqual(json.dumps(json.loads(text), indent=2) + "\n", text)
        one, = json.loads(text)["ports"][0]["neighbors"]
        return one

    def test_a_neighbor(self) -> None:
        self.assertEqual(self.told_of(SWITCH, "details").splitlines(), [
            "eth0: café-1 swp1",
            "  Heard         98 s of 120 s left",
            "  Chassis ID    mac 02:00:00:00:00:01",
            "  Port ID       mac 02:00:00:00:00:02",
            "  Port          swp1",
            "  Name          café-1",
            "  Capabilities  Bridge, Router (off)",
            "  Management    192.0.2.2, fe80::1",
            "  VLAN          120",
            "  VLAN names    120 office",
            "  Frame size    1522",
            "  Other TLVs    001122.5 68656c, unknown.9 00, age 7"])

    def setUp(self) -> None:
        super().setUp()
        self.served.live_lines = [*LIVE_LINES, f"live.eth0.since.1={CAME} {SWITCH.id}".encode()]
        self.told = self.object_of(EACH)
        self.served.live_lines = LIVE_LINES

    def test_it_is_whole(self) -> None:
        self.assertEqual(self.told["since"], CAME)
        told = self.object_of(())
        self.assertEqual({key: told[key] for key in [*told][[*told].index("vlan"):]}, {
            "vlan": {"pvid": None, "names": [], "protocol_vlans": [], "protocols": [],
                     "usage_digest": None, "management": None},
            "max_frame_size": None, "link_aggregation": None, "mac_phy": None, "power": None,
            "eee": None, "dcb": None, "med": None, "mud_url": None, "organizational": []})

    def test_vlan(self) -> None:
        self.assertEqual(self.told["vlan"], {
            "pvid": 120, "names": [{"vid": 120, "name": "office"}],
            "protocol_vlans": [{"ppvid": 120, "supported": True, "enabled": True}],
            "protocols": ["88cc000102"], "usage_digest": 0x01020304, "management": 1})

    def test_link(self) -> None:
        self.assertEqual(self.told["max_frame_size"], 1522)
        self.assertEqual(self.told["link_aggregation"],
                         {"capable": True, "aggregated": True, "port": 7})
        self.assertEqual(self.told["mac_phy"], {
            "autonegotiation": {"supported": True, "enabled": True, "advertised": [
                "10BASE-T/half", "10BASE-T/full", "100BASE-TX/half", "100BASE-TX/full",
                "1000BASE-T/full"]},
            "mau_type": 30, "type": "1000BASE-T", "speed": 1000, "duplex": "full"})

    def test_power(self) -> None:
        power = self.told["power"]
        self.assertEqual({key: power[key] for key in power if key != "bt"}, {
            "device": "PD", "supported": True, "enabled": True, "pair_control": False,
            "pairs": "spare", "class": 3, "type": "type 2 PD", "source": "PSE",
            "priority": "high", "requested": 25.5, "allocated": 20.0})
        self.assertEqual((power["bt"]["most_available"], power["bt"]["down_seconds"]), (99.9, 60))
        self.assertEqual(self.told["eee"], {"transmit": 17, "receive": 18, "fallback_receive": 19,
                                            "echo_transmit": 20, "echo_receive": 21})

    def test_dcb(self) -> None:
        tables = {"classes": list(range(8)), "bandwidths": [10, 20, 30, 40, 0, 0, 0, 0],
                  "algorithms": [*["enhanced transmission selection"] * 4,
                                 *["strict priority"] * 2, "credit-based shaper",
                                 "vendor specific"]}
        self.assertEqual(self.told["dcb"], {
            "ets": {"willing": True, "credit_based_shaper": True, "most_classes": 8, **tables},
            "ets_recommendation": tables,
            "pfc": {"willing": True, "macsec_bypass": False, "most_classes": 4, "enabled": [0, 3]},
            "application_priorities": [
                {"priority": 3, "selector": 1, "selector_name": "EtherType", "protocol": 0x8906},
                {"priority": 4, "selector": 2, "selector_name": "TCP or SCTP port",
                 "protocol": 3260}]})

    def test_med(self) -> None:
        med = self.object_of(ORG)["med"]
        self.assertEqual(med["capabilities"], ["capabilities", "policy", "location", "MDI/PSE",
                                               "MDI/PD", "inventory"])
        self.assertEqual(med["class"], 3)
        self.assertEqual(med["policies"], [{
            "application": 1, "name": "voice", "unknown": False, "tagged": True, "vid": 500,
            "priority": 5, "dscp": 46}])
        self.assertEqual(med["locations"], [
            {"form": "coordinates", "latitude": 48.5, "latitude_resolution": 18, "longitude": 2.25,
             "longitude_resolution": 18, "altitude": 35.5, "altitude_unit": "meters",
             "altitude_resolution": 9, "datum": "WGS84"},
            {"form": "civic address", "what": "client", "country": "NL", "elements": [
                {"type": 22, "name": "additional", "text": "Rack 12"}]},
            {"form": "elin", "digits": "9115551212"}])
        self.assertEqual(med["power"], {"device": "PD", "source": "PSE", "priority": "high",
                                        "watts": 5.0})
        kinds = ("hardware", "firmware", "software", "serial", "manufacturer", "model", "asset")
        self.assertEqual(med["inventory"], dict.fromkeys(kinds, "rev B"))

    def test_texts(self) -> None:
        one = SWITCH._replace(chassis=Identifier("local", "\\xff"), said=(
            ("chassis.name", "caf\\xc3\\xa9 \\\\"), ("chassis.descr", "caf\\xe9"),
            ("org.0080c2.3", "007801e9"), ("org.0012bb.5", "e9"), ("org.00005e.1", "e9"),
            ("org.0012bb.3", "020602e9410601e9")))
        told, = json.loads(self.told_of(one, "--json", "neighbors"))["ports"][0]["neighbors"]
        self.assertEqual((told["name"], told["descr"]), ("café \\", "caf\\xe9"))
        self.assertEqual(told["octets"], {"descr": "636166e9"})
        self.assertEqual(told["chassis"], {"kind": "local", "text": "\\xff",
                                           "octets": {"text": "ff"}})
        self.assertEqual(told["vlan"]["names"], [
            {"vid": 120, "name": "\\xe9", "octets": {"name": "e9"}}])
        self.assertEqual(told["med"]["inventory"], {"hardware": "\\xe9",
                                                    "octets": {"hardware": "e9"}})
        self.assertEqual(told["mud_url"], {"text": "\\xe9", "octets": {"text": "e9"}})
        self.assertEqual(told["med"]["locations"], [{
            "form": "civic address", "what": "client", "country": "\\xe9A",
            "octets": {"country": "e941"}, "elements": [
                {"type": 6, "name": "street", "text": "\\xe9", "octets": {"text": "e9"}}]}])
