"""For tests: lists of neighbors that lldpa-audit once handled wrongly."""
import gzip
import json
import os
from typing import Any, Sequence, Tuple

import rack
import vendors
from auditing import HEAD, Row, neighbor

PLAN = f"{HEAD}leaf1,swp1,host01,eth0\nleaf1,swp2,host02,eth0\nleaf2.lab,swp1,host04,eth0\n"
RIGHT = {"swp1": [("host01", "eth0")], "swp2": [("host02", "eth0")]}
OF_LEAF2 = {"swp1": [("host04", "eth0")]}
LEAF1, LEAF2 = vendors.napalm(RIGHT), vendors.napalm(OF_LEAF2)
HEARS_HOST01, HEARS_HOST02 = (rack.pcap([rack.lldp_frame(host, "eth0")])
                              for host in ("host01", "host02"))
ALL_RIGHT = ["3 cables: 3 right, 0 wrong"]
NOT_LOOKED_AT = "3 cables: 0 right, 0 wrong, 3 not looked at (host01, host02, host04, 1 more)"
USE_JSON = "use `lldpcli -f json show neighbors details`"
USE_A_LIST = ("use what `show lldp neighbors detail | json` or NAPALM's get_lldp_neighbors_detail "
              "prints")
IOS = "Local Intf: Gi1/0/1\nChassis id: 0200.5e00.5301\nPort id: eth0\nSystem Name: host01\n"
TRACEBACK = "Traceback (most recent call last):\n  File \"x.py\"\nTimeoutError: timed\x1b[2J out\n"
NO_ROUTE = {"comment": "no route to leaf2", "result": False, "out": {}}
TWICE = """{"swp1": [{"hostname": "x", "port": "y"}],
"swp2": [{"hostname": "host02", "port": "eth0"}],
"swp1": [{"hostname": "host01", "port": "eth0"}]}"""
# JSON of other commands, and what is found in it; once it was read as if nobody was heard
OTHER_DATA: Sequence[Tuple[str, Any, str]] = (
    ("interfaces of OpenConfig", {"openconfig-interfaces:interface": [{"name": "swp1"}]},
     "JSON with the names openconfig-interfaces:interface"),
    ("the same without a module", {"interface": [{"name": "swp1", "state": {"mtu": 1500}},
                                                 {"name": "swp2"}], "x": 1},
     "JSON with the names interface, x"),
    ("below interfaces", {"interfaces": {"interface": [{"name": "swp1"}, {"name": "swp2"}]}},
     "JSON with the names interfaces"),
    ("CDP of IOS-XR", {"Cisco-IOS-XR-cdp-oper:cdp": {"nodes": {"node": [{"neighbors": {
        "details": {"detail": [{"cdp-neighbor": [{"port-id": "x"}]}]}}}]}}},
     "JSON with the names Cisco-IOS-XR-cdp-oper:cdp"),
    ("the same without a module", {"nodes": {"node": [{"neighbors": {"details": {"detail": [
        {"cdp-neighbor": [{"port-id": "x"}]}]}}}]}}, "JSON with the names nodes"),
    ("lists that are empty", {"interfaces": [], "routes": [], "users": [], "vlans": []},
     "JSON with the names interfaces, routes, users, 1 more"),
    ("`ip -json link`", [{"ifname": "swp1"}, {"ifname": "swp2"}],
     "JSON with a list of 2 values, the first of which is JSON with the names ifname"),
    ("a list in a list", [[]],
     "JSON with a list of 1 value, the first of which is JSON with a list of 0 values"),
    ("rows of interfaces", {"swp1": [{"mtu": 1500}]}, "JSON with the names swp1"))
# refused lists of leaf1's neighbors, and the cause
REFUSED: Sequence[Tuple[str, Any, str]] = (
    ("7: a command that failed", NO_ROUTE, "the command failed: no route to leaf2"),
    ("5: a port twice", TWICE, "the name 'swp1' is in it twice: lines 1 and 3"),
    ("5: a host twice in a file of many", TWICE.replace("swp", "leaf"),
     "the name 'leaf1' is in it twice: lines 1 and 3"),
    ("5: a port twice in OpenConfig", {"openconfig-lldp:interface": [
        one for ports in (RIGHT, {"swp1": [("x", "y")]})
        for one in vendors.openconfig(ports)["openconfig-lldp:interface"]]},
     "the port 'swp1' is in it twice: as entries 1 and 3"),
    *((f"4: two lists with {mark!r} between", mark.join(map(json.dumps, (LEAF1, LEAF2))),
       "more than a prompt follows its JSON: save the output of only one command")
      for mark in ("", ",", "\n", "\nleaf2> show lldp neighbors detail | json\n")),
    ("a port without a name", {"": [{"hostname": "x", "port": "y"}]},
     "an entry has no name: was it shown without `detail`?"),
    ("14: EOS' short list", {"lldpNeighbors": [
        {"port": "swp1", "neighborDevice": "host01", "neighborPort": "eth0", "ttl": 120}]},
     "it is EOS' short list, without chassis IDs: use `show lldp neighbors detail | json`"),
    ("16: IOS", IOS, "it looks like a switch's plain text: use `show lldp neighbors detail | "
                     "json`, or --platform"),
    ("YAML", "leaf1:\n  swp1:\n  - hostname: host01\n", f"it is YAML: {USE_A_LIST}"),
    ("YAML with a begin", "---\nswp1: []\n", f"it is YAML: {USE_A_LIST}"),
    *((f"CSV with {mark!r}", HEAD.replace(",", mark), "it is CSV, as a plan is: the plan is the "
       f"first argument; for a list, {USE_A_LIST}") for mark in ",;\t"),
    *((f"other data: {name}", tree, f"it is {found}, not a known list of neighbors: {USE_A_LIST}")
      for name, tree, found in OTHER_DATA),
    ("16: keyvalue", "lldp.swp1.via=LLDP\n", f"it is in lldpcli's keyvalue format: {USE_JSON}"),
    ("16: XML", '<?xml version="1.0"?>\n<lldp/>', f"it is lldpcli's XML: {USE_JSON}"),
    ("16: a page", "<!DOCTYPE html><p>Log in", "it is a web page, such as a login page"),
    ("16: a shell", "sh: lldpcli: command not found\n",
     "the command that wrote it failed: sh: lldpcli: command not found"),
    ("16: NX-OS' short list", {"TABLE_nbor": {"ROW_nbor": []}},
     "it is NX-OS' short list, without chassis IDs: use `show lldp neighbors detail | json`"),
    ("16: nothing", [], "it is an empty list: ntc-templates returns one if nobody is heard, or if "
     "it cannot parse the text"),
    ("16: a chassis", {"local-chassis": {}},
     f"it is what lldpcli says of its own host: {USE_JSON}"))
OTHERS = "use `snmpwalk -v2c -c COMMUNITY HOST 1.0.8802.1.1.2.1`"
STOPPED = f"l: the walk stopped before it had read all of some ports' neighbors: {OTHERS}"
# what a file about many hosts has instead of leaf2's neighbors, and the audit's message about it
FAILED: Sequence[Tuple[str, Any, str]] = (
    ("7: salt's host that failed", NO_ROUTE, "the command failed: no route to leaf2"),
    ("10: a traceback", TRACEBACK, "in place of a list it has TimeoutError: timed\\x1b[2J out"),
    ("10: null", None, "in place of a list it has nothing"),
    ("10: an error", {"error": "x"},
     "it is an error message, not a list of neighbors"))
NO_LIST = f"it is JSON with the names rpc-reply, not a known list of neighbors: {USE_A_LIST}"
DATA = "<rpc-reply><data>{}</data></rpc-reply>"
IN_DATA = DATA.format(vendors.junos_xml(RIGHT).partition("\n")[2].replace(
    "</rpc-reply>\n", "").replace("junos:", ""))
PARTS = (
    Row("what NETCONF returns, which has an element named data", {"l": IN_DATA}, "leaf1:l", 3, [
        "3 cables: 2 right, 0 wrong, 1 not looked at (host04, leaf2.lab)"]),
    Row("one that has no neighbors", {"l": DATA.format("<x/>"), "leaf2.lab": LEAF2},
        "leaf1:l leaf2.lab", 3, [
            f"l: {NO_LIST}", f"leaf1  no data at 2 of 2 ports (l: {NO_LIST})",
            "3 cables: 1 right, 0 wrong, 2 not looked at (host01, host02)"]),
    *(Row(point, {"l": tree}, "leaf1:l", 3, [
        f"l: {cause}", f"leaf1  no data at 2 of 2 ports (l: {cause})", NOT_LOOKED_AT])
      for point, tree, cause in REFUSED),
    *(Row(point, {"l": {"leaf1": LEAF1, "leaf2.lab": tree}}, "l", 3, [
        f"l: leaf2.lab: {cause}",
        f"leaf2.lab swp1  no data: wants host04 eth0 (l: leaf2.lab: {cause})",
        "3 cables: 2 right, 0 wrong, 1 not looked at (host04)"]) for point, tree, cause in FAILED),
    *(Row(point, {"l": tree}, "leaf1:l", 1, [
        "swp2  extra: host03 eth0 besides host02 eth0",
        "3 cables: 1 right, 1 wrong, 1 not looked at (host04, leaf2.lab)"])
      for point, tree in vendors.LISTS.items()),
    Row("10: two lists of a host", {"a": LEAF1, "b": {}, "c": LEAF2},
        "leaf1:a leaf1:b leaf2.lab:c", 2,
        ["leaf1 has two lists: a and b",
         "leaf1  no data at 2 of 2 ports (leaf1 has two lists: a and b)",
         "3 cables: 1 right, 0 wrong, 2 not looked at (host01, host02)"]),
    Row("12: a list of words", {"lists/leaf1.json": LEAF1, "lists/leaf2.lab.json": LEAF2},
        "lists/leaf1.json lists/leaf2.lab.json", 0, ALL_RIGHT),
    Row("12: a file of no planned host", {"lists/leaf1.json": LEAF1, "lists/x.json": {}},
        "lists/leaf1.json lists/x.json", 3,
        ["plan.csv has no cable of the host x that can be judged: if the file is of another host, "
         "write HOST:FILE, such as leaf1:lists/x.json",
         "3 cables: 2 right, 0 wrong, 1 not looked at (host04, leaf2.lab)"]),
    *(Row(f"a file that tells nothing: {why}", {"l": text, "leaf2.lab": LEAF2}, "leaf1:l leaf2.lab",
          3, [*(f"plan.csv has no cable of the host {one} that can be judged" for one in unplanned),
              f"leaf1  no data at 2 of 2 ports (l: {why})",
              "3 cables: 1 right, 0 wrong, 2 not looked at (host01, host02)"])
      for text, unplanned, why in (
          (rack.section(), (), "it has no Ethernet interface"),
          (rack.section() + rack.block(1, b"\x71" + bytes(7)), (), "it has no Ethernet interface"),
          ({"leafX": {"swp1": []}}, ("leafX",), "it has lists of other hosts only"),
          ({"swp1": {}, "swp2": {}}, ("swp1", "swp2"), "it has lists of other hosts only"))),
    Row("two lists in one file", {"l": [vendors.eos(RIGHT), vendors.eos(OF_LEAF2)]}, "leaf1:l", 3, [
        "l: it has 2 lists of neighbors, as entries 1 and 2: give only one",
        "leaf1  no data at 2 of 2 ports (l: it has 2 lists of neighbors, as entries 1 and 2: give "
        "only one)", NOT_LOOKED_AT]),
    *(Row(f"gnmic of {source} in a file of leaf1", {"l": [{"source": source, "updates": [
        {"Path": "a", "values": {"a": vendors.openconfig(RIGHT)}}]}]}, "leaf1:l", 3, [
            f"l: it is of {name}, not of leaf1",
            f"leaf1  no data at 2 of 2 ports (l: it is of {name}, not of leaf1)", NOT_LOOKED_AT])
      for source, name in (("leaf2:57400", "leaf2"), ("leaf2.lab", "leaf2.lab"),
                           ("LEAF2.other:9339", "LEAF2.other"))),
    *(Row(f"gnmic of {source} in a file of leaf1", {"l": [{"source": source, "updates": [
        {"Path": "a", "values": {"a": vendors.openconfig(RIGHT)}}]}]}, "leaf1:l", 3, [
            "3 cables: 2 right, 0 wrong, 1 not looked at (host04, leaf2.lab)"])
      for source in ("leaf1:57400", "leaf1.lab", "192.0.2.1:57400", "[2001:db8::1]:57400", "sw1")),
    *(Row(f"a file that is named {name}", {name: LEAF1}, name, 2, [
        f"plan.csv has no cable of the host {name} that can be judged, but has the host leaf1: see "
        "--host, --ignore-case, --short-names"]) for name in ("LEAF1", "leaf1.lab")),
    Row("gnmic of the host with this name in another domain", {
        "plan.csv": f"{HEAD}sw.a,swp1,host01,eth0\nsw.b,swp1,host02,eth0\n",
        "l": [{"source": "sw.b:57400", "updates": [{"Path": "a", "values": {
            "a": vendors.openconfig({"swp1": [("host01", "eth0")]})}}]}]}, "sw.a:l", 3, [
                "l: it is of sw.b, not of sw.a",
                "swp1  no data: wants host01 eth0 (l: it is of sw.b, not of sw.a)",
                "2 cables: 0 right, 0 wrong, 2 not looked at (host01, host02, sw.b)"]),
    Row("gnmic of two hosts in one file", {"l": [
        {"source": f"{host}:57400", "updates": [{
            "Path": "a", "values": {"a": vendors.openconfig(ports)}}]}
        for host, ports in (("leaf1", RIGHT), ("leaf2.lab", OF_LEAF2))]}, "l", 0, ALL_RIGHT),
    Row("a walk that stopped", {"l": vendors.walk(RIGHT).rpartition("iso.")[0]}, "leaf1:l", 3, [
        STOPPED, f"swp2  no data: wants host02 eth0 ({STOPPED})",
        "3 cables: 1 right, 0 wrong, 2 not looked at (host02, host04, leaf2.lab)"]),
    Row("rows with a column for the host", {"l": [
        {"host": host, **row} for host, ports in (("leaf1", RIGHT), ("leaf2.lab", OF_LEAF2))
        for row in vendors.textfsm(ports)]}, "l", 0, ALL_RIGHT),
    Row("13: rows as nornir has them", {
        "l": {"leaf1": vendors.textfsm(RIGHT), "leaf2.lab": vendors.textfsm(OF_LEAF2)}}, "l", 0,
        ALL_RIGHT),
    Row("12: files named by host", {
        "seen/leaf1.JSON.gz": gzip.compress(json.dumps(LEAF1).encode()), "seen/leaf2.lab.txt": {},
        "seen/.hidden": "x"}, "seen", 1,
        ["leaf2.lab swp1  silent: wants host04 eth0", "3 cables: 2 right, 1 wrong"]),
    *(Row("12: folders named by host", {
        "seen/leaf1/swp1.pcap": HEARS_HOST01,
        "seen/leaf1/swp2.pcap.gz": gzip.compress(HEARS_HOST02),
        "seen/leaf2.lab/lldp/neighbors.json": LEAF2}, words, 0, ALL_RIGHT)
      for words in ("seen", "leaf1:seen/leaf1 leaf2.lab:seen/leaf2.lab")),
    Row("12: a folder without files", {"seen/.hidden": "x"}, "seen", 2,
        ["seen: it is a folder without files to read"]),
    Row("12: what is skipped in a folder", {
        "seen/fifo": os.mkfifo, "seen/gone.json": lambda path: path.symlink_to("nowhere"),
        "seen/leaf1.json~": "{", "seen/leaf1/list": LEAF1,
        "seen/self": lambda path: path.symlink_to("self"),
        "seen/leaf1/latest": lambda path: path.symlink_to("..")}, "seen", 3, [
            "seen/fifo: it is not a file, and is skipped",
            "seen/gone.json: it is a link that leads nowhere, and is skipped",
            "seen/leaf1/latest: it is a link to a folder, and is skipped",
            "seen/leaf1.json~: it is named like a backup copy, and is skipped",
            "seen/self: it is a link that leads nowhere, and is skipped",
            "3 cables: 2 right, 0 wrong, 1 not looked at (host04, leaf2.lab)"]),
    Row("12: one of two files of a host is damaged", {
        "a": vendors.napalm({"swp1": RIGHT["swp1"]}), "b": "{"}, "leaf1:a leaf1:b", 3, [
            "b: it begins like JSON, but is not valid JSON",
            "swp2  no data: wants host02 eth0 (b: it begins like JSON, but is not valid JSON)",
            "3 cables: 1 right, 0 wrong, 2 not looked at (host02, host04, leaf2.lab)"]),
    Row("an empty Port ID", {"l": neighbor("swp1", "h", "", kind="local")}, "leaf1:l", 1, [
        'swp1  wrong: wants host01 eth0, has h ""', "swp2  no data: wants host02 eth0",
        "3 cables: 0 right, 1 wrong, 2 not looked at (host02, host04, leaf2.lab)"]),
    Row("a saved answer of Prometheus", {"l": vendors.PROMETHEUS.read_bytes()}, "l", 1, [
        "swp3  unplanned: has host01 eth1", "swp5  unplanned: has host99 eth0",
        "swp6  unplanned: has host03 eth1 and rogue p1",
        "3 cables: 2 right, 0 wrong, 1 not looked at (host04, leaf2.lab); 3 unplanned ports"]),
)
ROWS = [row._replace(files={"plan.csv": PLAN, **row.files}, words=f"plan.csv {row.words}")
        for row in PARTS]
