"""For tests: lists in forms that no device or tool printed here. Each is written by hand after the
source that its name has: a YANG model, or a page of the vendor. All have the neighbors of WANTED.
"""
import json
import re
from typing import Any, Mapping, Sequence, Tuple

import vendors
from vendors import PORTS, chassis_of, each

MODEL_OF_XR = "Cisco-IOS-XR-ethernet-lldp-oper"
XE = "Cisco-IOS-XE-lldp-oper"
# the names of PORTS' neighbors
WANTED = {port: [*some] for port, some in PORTS.items()}


def srlinux(ports: vendors.Ports) -> Any:
    """Writes the tree of the YANG model srl_nokia-lldp."""
    return [{"name": port, "admin-state": "enable", "neighbor": [{
        "id": chassis_of(host), "first-message": "now", "system-name": host,
        "chassis-id": chassis_of(host), "chassis-id-type": "MAC_ADDRESS", "port-id": at,
        "port-id-type": "INTERFACE_NAME", "port-description": vendors.TO,
        "management-address": [{"address": "10.0.0.1", "type": "IPv4"}]} for host, at in some]}
        for port, some in ports.items()]


def xe(ports: vendors.Ports) -> Any:
    return each(ports, lambda port, host, at: {
        "device-id": host, "local-interface": port, "connecting-interface": at, "ttl": 120,
        "capabilities": {"bridge": [None]}})


def xr(ports: vendors.Ports) -> Any:
    """Writes the nodes of an IOS-XR device, with the neighbors of each in detail."""
    detail = [{"interface-name": port, "device-id": host, "lldp-neighbor": [{
        "receiving-interface-name": port, "device-id": host, "chassis-id": chassis_of(host),
        "port-id-detail": at, "hold-time": 120, "mib": {"port-id-sub-type": 5}, "detail": {
            "system-name": host, "port-description": vendors.TO, "network-addresses": {
                "lldp-addr-entry": [{"address": {"ipv6-address": "2001:db8::1"}},
                                    {"address": {"ipv4-address": "10.0.0.1"}}]}}}]}
        for port, some in ports.items() for host, at in some]
    return {"nodes": {"node": [{"node-name": "0/RP0/CPU0",
                                "neighbors": {"details": {"detail": detail}}}]}}


def suzieq(ports: vendors.Ports, host: str = "leaf1", namespace: str = "dc1") -> Any:
    return each(ports, lambda port, peer, at: {
        "namespace": namespace, "hostname": host, "ifname": port, "peerHostname": peer,
        "peerIfname": at, "description": "Cumulus Linux", "mgmtIP": "10.0.0.1", "timestamp": 1})


def updates(values: Sequence[Tuple[str, Any]], source: str = "leaf1:57400") -> Any:
    """Writes an answer of `gnmic get`."""
    return [{"source": source, "timestamp": 1, "time": "2026-11-27T00:00:00Z", "updates": [
        {"Path": path, "values": {path.partition("[")[0]: value}} for path, value in values]}]


def by_interface(ports: vendors.Ports, end: str = "") -> Sequence[Tuple[str, Any]]:
    """Writes an update for each interface. A path has a backslash before each `]` and each
    backslash of a name (gNMI, Schema path encoding conventions)."""
    found = vendors.openconfig(ports)["openconfig-lldp:interface"]
    names = [re.sub(r"([]\\])", r"\\\1", one["name"]) for one in found]
    return [(f"openconfig-lldp:lldp/interfaces/interface[name={name}]{end}",
             {f"openconfig-lldp:{key}": part for key, part in (
                 one["neighbors"] if end else one).items()}) for name, one in zip(names, found)]


# the names that templates of ntc-templates give to columns, with a value for each of these columns
OF_TEMPLATES = {
    "swp1": ("local_interface", "local_port"),
    "02:00:5e:00:53:01": ("chassis_id", "remote_chassis_id"),
    "eth1": ("neighbor_port_id", "neighbor_interface", "remote_port", "remote_port_id", "port_id",
             "port_info"),
    "host1": ("neighbor_name", "neighbor", "system_name", "remote_system_name"),
    "uplink": ("neighbor_description", "neighbor_interface", "port_description",
               "remote_port_desc"),
    "10.0.0.1": ("mgmt_address", "management_ip", "mgmt_address_v6")}
OF_SR_LINUX = {"system": {"lldp": {"interface": srlinux(PORTS)}}}
# each form with its source
READ: Mapping[str, Any] = {
    "SR Linux, `info from state system lldp | as json` (YANG model srl_nokia-lldp)": OF_SR_LINUX,
    "SR Linux through gnmic (the same)": updates([
        ("srl_nokia-system:system/srl_nokia-lldp:lldp", {"interface": srlinux(PORTS)})]),
    "IOS-XE, RESTCONF (YANG model Cisco-IOS-XE-lldp-oper)": {
        f"{XE}:lldp-entries": {"lldp-entry": xe(PORTS)}},
    "IOS-XE, RESTCONF of the list (the same)": {f"{XE}:lldp-entry": xe(PORTS)},
    "IOS-XR, RESTCONF (YANG model Cisco-IOS-XR-ethernet-lldp-oper)": {
        f"{MODEL_OF_XR}:lldp": xr(PORTS)},
    "Ansible's command, JSON in stdout (docs.ansible.com, ansible.builtin.command)": {
        "changed": True, "rc": 0, "stdout": json.dumps(vendors.EOS), "stdout_lines": ["{"]},
    "Ansible's ios_command, a list of texts (docs.ansible.com, cisco.ios.ios_command)": {
        "changed": False, "stdout": [json.dumps(vendors.NXOS)], "stdout_lines": [["{"]]},
    "a walk in stdout": {"stdout": vendors.walk(PORTS).strip(), "rc": 0},
}
# the same, of which nothing is known beyond the listed ports
OF_SOME_PORTS: Mapping[str, Any] = {
    "gnmic, an update for each interface (gnmic.openconfig.net, get)": updates(by_interface(PORTS)),
    "gnmic, an answer for each interface": [
        one for pair in by_interface(PORTS) for one in updates([pair])],
    "gnmic, the neighbors of each interface": updates(by_interface(PORTS, "/neighbors")),
    "gnmic, a prefix for each interface": [
        {"source": "leaf1:57400", "prefix": path.rpartition("/")[0], "updates": [
            {"Path": "neighbors", "values": {"neighbors": value}}]}
        for path, value in by_interface(PORTS, "/neighbors")],
    "gnmic, SR Linux by interface": updates([
        (f"system/lldp/interface[name={one['name']}]", one) for one in srlinux(PORTS)]),
}
OTHER = {"swp9": [("host09", "eth9")]}
# interfaces whose names have backslashes before some letters in the paths of gnmic
ESCAPED = {"a]1": [("host01", "eth0")], "a\\2": [("host02", "eth0")], "\\]": [], "]/b": []}
# files of several hosts, each of which has PORTS and leaf2 OTHER
MANY: Mapping[str, Any] = {
    "Suzieq, `lldp show --format=json` (suzieq.readthedocs.io, schema lldp)": [
        *suzieq(PORTS), *suzieq(OTHER, "leaf2")],
    "rows of ntc-templates with a column for the host": [
        {"host": host, **row} for host, ports in (("leaf1", PORTS), ("leaf2", OTHER))
        for row in vendors.textfsm(ports)],
    "gnmic of two targets": [
        *updates([("lldp", {"interfaces": vendors.OPENCONFIG})], "leaf1:57400"),
        *updates([("lldp", {"interfaces": vendors.openconfig(OTHER)})], "[leaf2]:57400")],
}
GNMIC = "use `gnmic get --path /lldp/interfaces`"
FACTS = {"ansible_facts": {"lldp": {"eth0": {"via": "LLDP", "rid": "1", "chassis": {
    "mac": "02:00:00:00:00:01", "name": "host01"}, "port": {"ifname": "eth1", "ttl": "120"}}}}}
EVENTS = [{"name": "default", "timestamp": 1, "tags": {
    "interface_name": "swp1", "source": "leaf1:57400", "subscription-name": "default"},
    "values": {"/lldp/interfaces/interface/neighbors/neighbor/state/port-id": "eth0"}}]
# what is refused, and why
REFUSED: Sequence[Tuple[Any, str]] = (
    (FACTS, "it is Ansible's facts `lldp`, in which a port has only one neighbor: use `lldpcli -f "
            "json show neighbors details`"),
    (EVENTS, f"it is gnmic's events: {GNMIC}"),
    (updates([("a/interface[name=x]/state/name", "x")]),
     f"it is an answer of gnmic, but not to a request for neighbors: {GNMIC}"),
    (updates([*by_interface(PORTS), ("lldp/config", {"enabled": True})]), "not to a request for"),
    (updates([("a/interface[name=swp1]/b[c=d]", by_interface(PORTS)[0][1])]),
     "not to a request for"),
    (updates([*by_interface(PORTS), *by_interface(OTHER), *by_interface(PORTS)]),
     "the port 'swp1' is in it twice: as entries 1 and 4"),
    ([{"source": "x", "updates": [{"Path": "a"}]}],
     f"it is an answer of gnmic whose update has no value: {GNMIC}"),
    ([{"source": "x", "updates": [{"Path": "a", "values": {"a": vendors.OPENCONFIG, "b": {}}}]}],
     f"it is an answer of gnmic whose update has no value: {GNMIC}"),
    ({f"{MODEL_OF_XR}:lldp": {"nodes": {"node": [{"neighbors": {"devices": {}}}]}}},
     "it is IOS-XR's neighbors without `details`: ask for nodes/node/neighbors/details"),
    ([*suzieq(PORTS), *suzieq(OTHER, "leaf1", "dc2")],
     "'leaf1' is in two namespaces, 'dc1' and 'dc2': give only one"),
    ([{**vendors.ROWS[0], "host": "leaf1"}, vendors.ROWS[1]], "only some of its rows have a host"),
    ({"rc": 0, "stdout": "Local Intf: x"}, "it looks like a switch's plain text"),
    ({"rc": 0, "stdout": ["{}", "{}"]}, "it is JSON with the names rc, stdout, not a known "
     "list of neighbors: use what"),
)
