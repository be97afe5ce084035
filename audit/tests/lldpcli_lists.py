"""For tests: lists of neighbors as `lldpcli -f json0` and `lldpcli -f json` print them."""
import json
from typing import Any, Callable, Dict, List, Mapping, Sequence, Tuple

Pairs = Sequence[Tuple[str, str]]
Tlvs = Callable[[Tuple[str, str]], Pairs]
# what lldpcli shows for a PVID with the VLAN's name, and for the autonegotiation of a copper link
VLAN = {"vlan-id": "10", "pvid": True, "value": "ten"}
COPPER = {"supported": True, "enabled": True,
          "advertised": [{"type": "1000Base-T", "hd": False, "fd": True}],
          "current": [{"value": "1000BaseTFD - Four-pair Category 5 UTP, full duplex mode"}]}
SETTINGS = (("0080c2.1", "000a"), ("0080c2.3", "000a0374656e"), ("00120f.4", "2400"),
            ("00120f.1", "030001001e"))


def value(text: str) -> List[Any]:
    return [{"value": text}]


def neighbor(port: str, lines: Mapping[str, str], tlvs: Pairs) -> Dict[str, Any]:
    """Returns a neighbor in the form json0, from the lines of `show neighbors` about it."""
    sent = dict(tlvs)
    on = [part.split(":") for part in lines["chassis.caps"].split(",")]
    address, _, number = lines["chassis.mgmt"].split(",")[:3]
    chassis = {"id": [{"type": "mac", "value": lines["chassis.mac"]}],
               "name": value(lines["chassis.name"]), "descr": value(lines["chassis.descr"]),
               "mgmt-ip": value(address), "mgmt-iface": value(number),
               "capability": [{"type": name, "enabled": state == "on"} for name, state in on]}
    of_port = {"id": [{"type": "ifname", "value": lines["port.ifname"]}],
               "descr": value(lines["port.descr"]), "ttl": value(lines["ttl"])}
    if "00120f.4" in sent:
        of_port["mfs"] = value(str(int(sent["00120f.4"], 16)))
    if "00120f.3" in sent:
        of_port["aggregation"] = value(str(int(sent["00120f.3"][2:], 16)))
    told = {"name": port, "via": "LLDP", "age": "0 day, 00:12:05", "chassis": [chassis],
            "port": [of_port]}
    if set(SETTINGS) <= set(tlvs):
        of_port["auto-negotiation"] = [COPPER]
        told["vlan"] = [VLAN]
    return told


def json0(neighbors: Sequence[Dict[str, Any]]) -> str:
    return json.dumps(whole(neighbors), indent=2) + "\n"


def short(neighbors: Sequence[Dict[str, Any]]) -> str:
    """Returns the neighbors in the form json, in which a single item is not in a list."""
    return json.dumps({"lldp": shortened(whole(neighbors)["lldp"])}, indent=2) + "\n"


def whole(neighbors: Sequence[Dict[str, Any]]) -> Dict[str, Any]:
    return {"lldp": [{"interface": list(neighbors)} if neighbors else {}]}


def shortened(told: Any) -> Any:
    """Returns a part of the form json0 in the form json."""
    if isinstance(told, list):
        parts = [shortened(one) for one in told]
        return parts[0] if len(parts) == 1 else parts
    if not isinstance(told, dict):
        return told
    if list(told) == ["value"]:
        return told["value"]
    parted = {key: shortened(one) for key, one in told.items()}
    if not isinstance(parted.get("name"), str):
        return parted
    return {parted.pop("name"): parted}
