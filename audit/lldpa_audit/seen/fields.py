"""Describes the forms of JSON that list neighbors: where each has ports, neighbors, and fields."""
from typing import NamedTuple


class Form(NamedTuple):
    """A form of JSON: the paths to ports, from a port to its neighbors, and from a neighbor to its
    fields. JSON has this form if `sign`, which only lists of neighbors have, leads somewhere in
    it. If `port` is empty, the port is the name that `*` matched. If `neighbors` begins with
    `?`, a port may lack that field. If `kind` is empty, a Port ID that looks like an interface's
    name counts as one. `aggregate` leads to the aggregate of which a port is a member. A
    neighbor needs a chassis ID and a Port ID or, with `of_names`, one name of its host and one
    of its port. In rows, `host` is the path to the name of the host, if they are of several.
    `time` leads to when a neighbor was last heard."""

    sign: str
    ports: str
    port: str
    neighbors: str
    chassis: str
    kind: str
    port_id: str
    name: str
    descr: str
    addresses: str = ""
    aggregate: str = ""
    of_names: bool = False
    protocol: str = ""
    host: str = ""
    time: str = ""


INFO = "neighborInterfaceInfo"
OF_SR_LINUX = ("interface", "srl_nokia-lldp:interface", "system lldp interface",
               "srl_nokia-system:system srl_nokia-lldp:lldp interface")
XE = "Cisco-IOS-XE-lldp-oper"
OF_OPENCONFIG = (
    "openconfig-lldp:interface", "openconfig-lldp:interfaces interface",
    "lldp interfaces interface",
    "openconfig-lldp:lldp interfaces interface",
    "openconfig-lldp:lldp openconfig-lldp:interfaces interface")
OF_XR = "detail network-addresses lldp-addr-entry address"
NAPALM = Form("* remote_chassis_id, * remote_port, * hostname", "*", "", "", "remote_chassis_id",
              "", "remote_port, port", "remote_system_name, hostname",
              "remote_port_description", of_names=True)
# lldpcli's `json`, in which names of interfaces, and System Names, are keys of objects
LLDPCLI = Form("lldp interface * via, lldp interface * chassis", "lldp interface *", "", "",
               "chassis id, chassis * id", "port id type", "port id",
               "chassis name, chassis * id @", "port descr", "chassis mgmt-ip, chassis * mgmt-ip",
               "port aggregation", protocol="via")
# lldpa-ctl --json
OURS = Form("ports neighbors_held", "ports", "name", "neighbors", "chassis text", "port_id kind",
            "port_id text", "name", "port_descr", "management")
FORMS = (
    OURS,
    LLDPCLI,
    # lldpcli's `json0`, in which the value of each name is a list
    LLDPCLI._replace(sign="lldp interface via, lldp interface chassis", ports="lldp interface",
                     port="name"),
    # Arista's EOS, which formerly put Port IDs in quotes
    Form("lldpNeighbors", "lldpNeighbors *", "", "lldpNeighborInfo", "chassisId",
         f"{INFO} interfaceIdType", f"{INFO} interfaceId_v2, {INFO} interfaceId", "systemName",
         f"{INFO} interfaceDescription", "managementAddresses address",
         f"{INFO} linkAggregationInterfaceId", time="lastContactTime"),
    # Cisco's NX-OS
    Form("TABLE_nbor_detail", "TABLE_nbor_detail ROW_nbor_detail", "l_port_id", "", "chassis_id",
         "", "port_id", "sys_name", "port_desc", "mgmt_addr, mgmt_addr_ipv6"),
    # Juniper's Junos
    Form("lldp-neighbors-information", "lldp-neighbors-information lldp-neighbor-information",
         "lldp-local-interface, lldp-local-port-id", "", "lldp-remote-chassis-id",
         "lldp-remote-port-id-subtype", "lldp-remote-port-id", "lldp-remote-system-name",
         "lldp-remote-port-description", "lldp-remote-management-address"),
    # NVUE of Cumulus Linux
    Form("* lldp neighbor", "*", "", "?lldp neighbor *", "chassis chassis-id", "port type",
         "port name", "chassis system-name", "port description",
         "chassis management-address-ipv4, chassis management-address-ipv6"),
    # systemd's networkctl
    Form("Neighbors InterfaceName", "Neighbors", "InterfaceName", "?Neighbors", "ChassisID", "",
         "PortID", "SystemName", "PortDescription"),
    # Nokia's SR Linux, by its YANG model srl_nokia-lldp
    Form(", ".join([*(f"{path} neighbor" for path in OF_SR_LINUX), "system lldp interface name"]),
         ", ".join(OF_SR_LINUX), "name",
         "?neighbor", "chassis-id", "port-id-type", "port-id", "system-name", "port-description",
         "management-address address"),
    # OpenConfig
    Form(", ".join([*(f"{path} name" for path in OF_OPENCONFIG), "interface neighbors neighbor"]),
         ", ".join([*OF_OPENCONFIG, "interface"]), "name", "?neighbors neighbor",
         "state chassis-id", "state port-id-type", "state port-id",
         "state system-name", "state port-description",
         "state management-address"),
    # Cisco's IOS-XE, by its YANG model Cisco-IOS-XE-lldp-oper: it has no chassis IDs
    Form(f"{XE}:lldp-entries lldp-entry, {XE}:lldp-entry",
         f"{XE}:lldp-entries lldp-entry, {XE}:lldp-entry", "local-interface", "", "", "",
         "connecting-interface", "device-id", "", of_names=True),
    # Cisco's IOS-XR, by its YANG model Cisco-IOS-XR-ethernet-lldp-oper
    Form("nodes node neighbors details detail lldp-neighbor, Cisco-IOS-XR-ethernet-lldp-oper:lldp "
         "nodes node neighbors details",
         "nodes node neighbors details detail lldp-neighbor, Cisco-IOS-XR-ethernet-lldp-oper:lldp "
         "nodes node neighbors details detail lldp-neighbor",
         "receiving-interface-name", "", "chassis-id", "mib port-id-sub-type", "port-id-detail",
         "detail system-name", "detail port-description",
         f"{OF_XR} ipv4-address, {OF_XR} ipv6-address"),
)
# rows of a table, one for each neighbor
ROWS = (
    # ntc-templates; TextFSM itself writes the columns' names in capital letters
    Form("local_interface, local_port", "", "local_interface, local_port", "",
         "chassis_id, remote_chassis_id", "",
         "neighbor_port_id, neighbor_interface, remote_port, remote_port_id, port_id, port_info",
         "neighbor_name, neighbor, system_name, remote_system_name",
         "neighbor_interface, neighbor_description, port_description, remote_port_desc",
         "mgmt_address, management_ip, mgmt_address_v6", of_names=True, host="host"),
    # Suzieq's table lldp
    Form("peerHostname", "", "ifname", "", "", "", "peerIfname, peerMacaddr", "peerHostname", "",
         "mgmtIP", of_names=True, host="hostname", time="timestamp"),
)
