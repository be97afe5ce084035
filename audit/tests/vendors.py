"""For tests: writes lists of neighbors in each form. The forms of vendors follow the vendors'
documents; no switch printed them. `walk` writes lines as snmpwalk printed them for a real lldpd.

Each function takes a host's ports. The neighbors of a port are pairs of host and port.
"""
import json
import re
from pathlib import Path
from typing import Any, Callable, Mapping, Sequence, Tuple

SAMPLES = Path(__file__).parent / "samples"
WALK, PROMETHEUS = SAMPLES / "lldpd.walk", SAMPLES / "prometheus.json"
Ports = Mapping[str, Sequence[Tuple[str, str]]]
TO = "to the fabric"


def chassis_of(host: str) -> str:
    """Returns a chassis ID, different for each host."""
    digits = f"{sum(ord(letter) * 7 ** at for at, letter in enumerate(host)) % 16 ** 6:06x}"
    return f"02:00:5e:{digits[:2]}:{digits[2:4]}:{digits[4:]}"


def each(ports: Ports, write: Callable[[str, str, str], Any]) -> list[Any]:
    """Calls `write` with the local port, host and port of each neighbor. Returns the results."""
    return [write(port, *one) for port, neighbors in ports.items() for one in neighbors]


def eos(ports: Ports) -> Any:
    return {"lldpNeighbors": {port: {"lldpNeighborInfo": [{
        "chassisIdType": "macAddress", "chassisId": chassis_of(host), "systemName": host,
        "systemDescription": "Arista Networks EOS version 4.31.2F",
        "managementAddresses": [{"addressType": "ipv4", "address": "10.0.0.1"}],
        "neighborInterfaceInfo": {
            "interfaceIdType": "interfaceName", "interfaceId": f'"{at}"', "interfaceId_v2": at,
            "interfaceDescription": TO, "maxFrameSize": 9216, "portVlanId": 10,
            "linkAggregationInterfaceId": 0}} for host, at in neighbors]}
        for port, neighbors in ports.items()}}


def nxos(ports: Ports) -> Any:
    """Writes NX-OS' form, in which a single neighbor is not in a list."""
    rows = each(ports, lambda port, host, at: {
        "chassis_type": "4", "chassis_id": chassis_of(host), "port_type": "5", "port_id": at,
        "l_port_id": port, "port_desc": TO, "sys_name": host, "sys_desc": "Cisco NX-OS(tm)",
        "ttl": "112", "mgmt_addr_type": "IPV4", "mgmt_addr": "10.0.0.1",
        "mgmt_addr_ipv6": "not advertised", "vlan_id": "10"})
    return {"TABLE_nbor_detail": {"ROW_nbor_detail": rows[0] if len(rows) == 1 else rows},
            "neigh_count": str(len(rows))}


def junos_rows(ports: Ports) -> Sequence[Mapping[str, str]]:
    return each(ports, lambda port, host, at: {
        "lldp-local-port-id": port, "lldp-remote-chassis-id-subtype": "Mac address",
        "lldp-remote-chassis-id": chassis_of(host), "lldp-remote-port-id-subtype": "Interface name",
        "lldp-remote-port-id": at, "lldp-remote-port-description": TO,
        "lldp-remote-system-name": host, "lldp-remote-management-address": "10.0.0.1"})


def junos(ports: Ports) -> Any:
    entries = [{name: [{"data": text}] for name, text in row.items()} for row in junos_rows(ports)]
    return {"lldp-neighbors-information": [
        {"attributes": {"junos:style": "detail"}, "lldp-neighbor-information": entries}]}


def junos_xml(ports: Ports) -> str:
    entries = "".join(
        "".join(["<lldp-neighbor-information>\n",
                 *[f"<{name}>{text}</{name}>\n" for name, text in row.items()],
                 "</lldp-neighbor-information>\n"]) for row in junos_rows(ports))
    return ('<rpc-reply xmlns:junos="http://xml.juniper.net/junos/21.4R0/junos">\n'
            '<lldp-neighbors-information junos:style="detail">\n'
            f"{entries}</lldp-neighbors-information>\n</rpc-reply>\n")


def nvue(ports: Ports) -> Any:
    """Writes NVUE's form, in which each neighbor has a name."""
    return {port: {"lldp": {"neighbor": {f"{host}-{number}": {
        "age": "3600", "chassis": {
            "chassis-id": chassis_of(host), "management-address-ipv4": "10.0.0.1",
            "system-description": "Cumulus Linux", "system-name": host},
        "port": {"description": TO, "name": at, "ttl": 120, "type": "ifname"}}
        for number, (host, at) in enumerate(neighbors)}}} for port, neighbors in ports.items()}


def networkctl(ports: Ports) -> Any:
    """Writes `networkctl lldp --json=short` of systemd."""
    return {"Neighbors": [{"InterfaceIndex": number, "InterfaceName": port, "Neighbors": [{
        "ChassisID": chassis_of(host), "RawChassisID": [4, 2], "PortID": at,
        "RawPortID": [5, *at.encode()], "PortDescription": TO, "SystemName": host,
        "EnabledCapabilities": 20, "VlanID": 10} for host, at in neighbors]}
        for number, (port, neighbors) in enumerate(ports.items(), 1)]}


def napalm(ports: Ports) -> Any:
    """Writes NAPALM's get_lldp_neighbors_detail."""
    return {port: [{
        "parent_interface": "", "remote_chassis_id": chassis_of(host), "remote_system_name": host,
        "remote_port": at, "remote_port_description": TO, "remote_system_description": ""}
        for host, at in neighbors] for port, neighbors in ports.items()}


def textfsm(ports: Ports) -> Any:
    """Writes rows of ntc-templates for IOS, as netmiko returns them."""
    return each(ports, lambda port, host, at: {
        "local_interface": port, "chassis_id": chassis_of(host), "neighbor_port_id": at,
        "neighbor_interface": TO, "neighbor_name": host, "system_description": "Cisco IOS Software",
        "capabilities": "B,R", "mgmt_address": "10.0.0.1", "vlan_id": "10", "serial": ""})


def openconfig(ports: Ports) -> Any:
    """Writes OpenConfig's JSON, as a gNMI client gets it for /lldp/interfaces."""
    return {"openconfig-lldp:interface": [{"name": port, "state": {"name": port}, "neighbors": {
        "neighbor": [{"id": str(number), "state": {
            "chassis-id": chassis_of(host), "chassis-id-type": "MAC_ADDRESS", "port-id": at,
            "port-id-type": "INTERFACE_NAME", "port-description": TO, "system-name": host,
            "management-address": "10.0.0.1"}} for number, (host, at) in enumerate(neighbors)]}}
        for port, neighbors in ports.items()]}


def walk(ports: Ports) -> str:
    """Writes LLDP-MIB as snmpwalk prints it."""
    local = list(enumerate(ports, 1))
    seen = [(f"0.{number}.{place}", host, at) for number, port in local
            for place, (host, at) in enumerate(ports[port], 1)]
    columns = {
        "3.7.1.2": [(number, "INTEGER: 5") for number, _ in local],
        "3.7.1.3": [(number, f'STRING: "{port}"') for number, port in local],
        "4.1.1.4": [(index, "INTEGER: 4") for index, _, _ in seen],
        "4.1.1.5": [(index, f"Hex-STRING: {chassis_of(host).upper().replace(':', ' ')} ")
                    for index, host, _ in seen],
        "4.1.1.6": [(index, "INTEGER: 5") for index, _, _ in seen],
        "4.1.1.7": [(index, f'STRING: "{at}"') for index, _, at in seen],
        "4.1.1.8": [(index, f'STRING: "{TO}"') for index, _, _ in seen],
        "4.1.1.9": [(index, f'STRING: "{host}"') for index, host, _ in seen]}
    return "".join(f"iso.0.8802.1.1.2.1.{column}.{index} = {value}\n"
                   for column, rows in columns.items() for index, value in rows)


OF_JSON = (eos, nxos, junos, nvue, networkctl, napalm, textfsm, openconfig)
FORMS: Mapping[str, Callable[[Ports], str]] = {
    **{write.__name__: lambda ports, write=write: json.dumps(write(ports)) for write in OF_JSON},
    "junos_xml": junos_xml, "walk": walk}

PORTS = {"swp1": [("host01", "eth0")], "swp2": [("host02", "eth0"), ("host03", "eth0")]}
EOS, NXOS, JUNOS, NAPALM, ROWS = (write(PORTS) for write in (eos, nxos, junos, napalm, textfsm))
OPENCONFIG = openconfig(PORTS)
XML = junos_xml(PORTS)
ENGINE = """<multi-routing-engine-results xmlns='http://xml.juniper.net/'>
<multi-routing-engine-item>
<re-name>fpc0</re-name>
"""
ENGINE_END = "</multi-routing-engine-item>\n</multi-routing-engine-results>\n"
PROMPT = "Last login: Mon Nov 23\n{master:0}\nadmin@leaf1> show lldp neighbors detail | json\n"
# the same neighbors as several programs wrap them, and in other encodings
LISTS: Mapping[str, Any] = {
    "5, 10: salt": {"comment": "", "result": True, "out": NAPALM},
    "13: rows of TextFSM itself": [{name.upper(): text for name, text in row.items()}
                                   for row in ROWS],
    "13: rows of brief lists": each(PORTS, lambda port, host, at: {
        "local_interface": port, "neighbor": host, "neighbor_interface": at}),
    "13: rows as Ansible's cli_parse returns them": {"changed": False, "parsed": ROWS},
    "14: Ansible's NAPALM": {"ansible_facts": {"napalm_lldp_neighbors_detail": NAPALM}},
    "14: nornir": {"get_lldp_neighbors_detail": NAPALM},
    "14: eAPI": {"jsonrpc": "2.0", "id": "1", "result": [{}, EOS]},
    "14: Ansible's eos_command": {"changed": False, "failed": False, "stdout": [EOS]},
    "14: NX-API": {"ins_api": {"type": "cli_show", "version": "1.0", "sid": "eoc", "outputs": {
        "output": {"input": "show lldp neighbors detail", "msg": "Success", "code": "200",
                   "body": NXOS}}}},
    "14: NX-API by JSON-RPC": {"jsonrpc": "2.0", "result": {"body": NXOS}, "id": 1},
    "14: the routing engines of Junos": {"multi-routing-engine-results": [
        {"multi-routing-engine-item": [{"re-name": [{"data": "fpc0"}], **JUNOS}]}]},
    "14: the routing engines of Junos in XML": XML.replace(
        "<lldp-neighbors-information", f"{ENGINE}<lldp-neighbors-information").replace(
        "</rpc-reply>", f"{ENGINE_END}</rpc-reply>"),
    "14: OpenConfig below its module": {"openconfig-lldp:lldp": {"interfaces": {
        "interface": OPENCONFIG["openconfig-lldp:interface"]}}},
    "14: gnmic": [{"source": "leaf1:57400", "timestamp": 1, "updates": [{
        "Path": "openconfig-lldp:lldp/interfaces",
        "values": {"openconfig-lldp:lldp/interfaces": OPENCONFIG}}]}],
    "14: a prompt": f"{PROMPT}{json.dumps(EOS, indent=1)}\n\n{{master:0}}\nadmin@leaf1> ",
    "14: UTF-16": json.dumps(EOS).encode("utf-16"),
    "14: a mark of UTF-8": b"\xef\xbb\xbf" + json.dumps(EOS).encode(),
    "14: lines of Windows": f'<?xml version="1.0"?>\n{XML}'.replace("\n", "\r\n"),
    "15: a walk with names": re.sub(
        r"iso\.0\.8802\.1\.1\.2\.1\.([0-9.]+?)\.(?=[0-9.]+ =)(.*?)INTEGER: 5",
        r"iso.0.8802.1.1.2.1.\1.\2INTEGER: interfaceName(5)", walk(PORTS)),
    "15: a walk with numbers": walk(PORTS).replace("iso.", ".1."),
}
