"""For tests: situations that were once judged wrongly, each with what its audit prints.

A line of a list of neighbors is `PORT HOST PORT`, or `PORT` if this port hears nobody.
"""
import json
from typing import Any, List, Mapping, Sequence

from auditing import HEAD, Row, neighbor

CABLES = "device_a,termination_a,device_b,termination_b,type,status\n"
TYPED = "side_a_device,side_a_type,side_a_name,side_b_device,side_b_type,side_b_name\n"
KNOWN, KNOWN_VERDICT = "host,port,reason,until\n", "host,port,reason,until,verdict\n"
PAIRS = "device,name,rear_port,rear_port_position\n"
FIELDS = ("remote_system_name", "remote_port", "remote_chassis_id", "remote_port_description")


def situation(name: str, plan: str, lists: Mapping[str, str], status: int, lines: Sequence[str],
              words: str = "", files: Mapping[str, str] = {}) -> Row:
    """Returns an audit of a plan and of the hosts' lists, with further arguments and files."""
    seen = {f"lists/{host}": napalm(text) for host, text in lists.items()}
    return Row(name, {"plan": plan, **seen, **files}, f"plan lists {words}", status, lines)


def napalm(text: str) -> str:
    """Converts a list to NAPALM's form. JSON and `show neighbors` output are returned unchanged."""
    if text.startswith(("{", "lldp.")):
        return text
    ports: dict[str, List[Any]] = {}
    for line in text.strip().splitlines():
        port, *peer = line.split(" ")
        ports.setdefault(port, [])
        if peer:
            ports[port].append(dict(zip(FIELDS if len(peer) > 2 else ("hostname", "port"), peer)))
    return json.dumps(ports)


RACK = "".join(f"leaf1,swp{at},srv{at},eth0\nleaf2,swp{at},srv{at},eth1\n" for at in range(1, 5))
LEAF1 = "".join(f"swp{at} srv{at} eth0\n" for at in range(1, 5))
LEAF2 = "".join(f"swp{at} srv{at} eth1\n" for at in range(1, 5))
RED = "8 cables: 4 right, 0 wrong, 4 not looked at (leaf2, srv1, srv2, 2 more)"

BY_LINK = (
    situation("servers without lists are no gap", HEAD + RACK, {"leaf1": LEAF1, "leaf2": LEAF2}, 0,
              ["8 cables: 8 right, 0 wrong"]),
    situation("a switch without a list", HEAD + RACK, {"leaf1": LEAF1}, 3, [RED]),
    situation("one in an audit of a part", HEAD + RACK, {"leaf1": LEAF1}, 0, [RED], "--partial"),
    situation("the servers are known, and a switch has no list", HEAD + RACK, {"leaf1": LEAF1}, 3,
              [RED], "--known known",
              {"known": KNOWN + "".join(f"srv{at},,sends no LLDP,\n" for at in range(1, 5))}),
    situation("both sides of what nobody looked at are known", HEAD + RACK, {"leaf1": LEAF1}, 0,
              ["8 cables: 4 right, 0 wrong, 4 known"], "--known known",
              {"known": KNOWN + "leaf2,,off,\n" + "".join(f"srv{at},eth1,off,\n"
                                                          for at in range(1, 5))}),
)
NAS = HEAD + "leaf1,swp1,nas1,e0\nleaf1,swp2,srv2,e0\n"
SILENT_NAS = KNOWN + "nas1,,sends no LLDP,\n"
WRONG_NAS = KNOWN_VERDICT + "nas1,,an access point,,wrong\n"
KNOWN_FAULTS = [
    situation(name, NAS, {"leaf1": seen}, status, lines, "--known known", {"known": known})
    for name, seen, known, status, lines in (
        ("silence is excused", "swp2 srv2 e0", SILENT_NAS, 0,
         ["2 cables: 1 right, 0 wrong, 1 known"]),
        ("a rogue is not", "swp1 rogue-ap p\nswp2 srv2 e0", SILENT_NAS, 1,
         ["swp1  wrong: wants nas1 e0, has rogue-ap p", "2 cables: 1 right, 1 wrong"]),
        ("an exchange is not", "swp1 srv2 e0", SILENT_NAS, 1,
         ["swp1  wrong: wants nas1 e0, has srv2 e0 (planned at swp2)",
          "swp2  silent: wants srv2 e0 (seen at swp1)", "2 cables: 0 right, 2 wrong"]),
        ("a verdict is excused by its name", "swp1 rogue-ap p\nswp2 srv2 e0", WRONG_NAS, 0,
         ["2 cables: 1 right, 0 wrong, 1 known"]),
        ("and no other one", "swp2 srv2 e0", WRONG_NAS, 1,
         ["swp1  silent: wants nas1 e0", "2 cables: 1 right, 1 wrong"]),
        ("a row of nothing planned", "swp1 nas1 e0\nswp2 srv2 e0",
         KNOWN + "nas9,,sends no LLDP,\nleaf1,swp9,spare,\n", 0,
         ["known: line 2: nas9 has no link that can be judged", "known: line 3: leaf1 swp9 has "
          "no link that can be judged", "2 cables: 2 right, 0 wrong"]),
        ("a bad verdict", "swp1 nas1 e0", KNOWN_VERDICT + "nas1,,x,,quiet\n", 2,
         ["known: line 2: 'quiet' cannot be excused, only wrong, swapped, silent, moved, "
          "extra, doubled, one-sided, disagrees, unplanned, no data"]))]
PANELED = HEAD + "".join(f"leaf1,swp{at},pp1,F{at}\npp1,R{at},pp2,R{at}\npp2,F{at},srv{at},e0\n"
                         for at in range(1, 5))
TRUNK = HEAD + "pp1,R1,pp2,R1\nleaf1,swp5,pp1,F5\npp2,F1,srv1,e0\nleaf1,swp6,srv6,e0\n"
PAIR_ROWS = [f"pp{panel},F{at},R{at},\n" for panel in (1, 2) for at in range(1, 5)]
PANELS = (
    situation("half of the rows are missing", PANELED, {"leaf1": "swp1 srv1 e0\nswp2 srv2 e0"}, 3, [
        "leaf1 swp3 cannot be judged: panels has no row for pp1 F3",
        "srv3 e0 cannot be judged: panels has no row for pp2 F3",
        "leaf1 swp4 cannot be judged: panels has no row for pp1 F4",
        "1 more port cannot be judged",
        "4 cables: 2 right, 0 wrong, 2 not judged"], "--panels panels",
        {"panels": PAIRS + "".join(PAIR_ROWS[:2] + PAIR_ROWS[4:6])}),
    situation("and all are needed", PANELED,
              {"leaf1": "swp1 srv1 e0\nswp2 srv2 e0\nswp3 srv3 e0"}, 3, [
                  "leaf1 swp4 cannot be judged: panels has no row for pp1 F4",
               "srv4 e0 cannot be judged: panels has no row for pp1 R4",
               "4 cables: 3 right, 0 wrong, 1 not judged"], "--panels panels",
              {"panels": PAIRS + "".join(PAIR_ROWS[:3] + PAIR_ROWS[4:])}),
    situation("position 5 finds position 1 alone", TRUNK,
              {"leaf1": "swp5 srv1 e0\nswp6 srv6 e0"}, 3, [
                  "leaf1 swp5 cannot be judged: panels has no position 5 at pp2 R1",
               "srv1 e0 cannot be judged: panels has no position 1 at pp1 R1",
               "2 cables: 1 right, 0 wrong, 1 not judged"], "--panels panels",
              {"panels": PAIRS + "pp1,F5,R1,5\npp2,F1,R1,1\n"}),
    situation("no panels at all", TYPED + "leaf1,dcim.interface,swp1,pp1,dcim.frontport,F1\n"
              "leaf1,dcim.interface,swp2,srv2,dcim.interface,e0\n",
              {"leaf1": "swp1 x y\nswp2 srv2 e0"}, 0, [
                  "plan: 1 cable ends at patch panels and cannot be judged: give --panels with "
                  "NetBox's export of front ports", "2 cables: 1 right, 0 wrong, 1 not judged"],
              "--partial"),
)
BETWEEN_PANELS = situation(
    "a cable between panels is none of those that end at one", TYPED
    + "leaf1,dcim.interface,swp1,pp1,dcim.frontport,F1\npp1,dcim.rearport,R1,pp2,dcim.rearport,R1\n"
    + "leaf1,dcim.interface,swp2,srv2,dcim.interface,e0\n", {"leaf1": "swp1 x y\nswp2 srv2 e0"},
    3, [
        "plan: 1 cable ends at patch panels and cannot be judged: give --panels with NetBox's "
        "export of front ports", "2 cables: 1 right, 0 wrong, 1 not judged"])
CX = HEAD + "leaf1,swp5,cx1,1/1/5\nleaf1,swp6,cx1,1/1/6\n"
NUMBERS = CX.replace("1/1/", "")
OF_LLDPCLI = json.dumps({"lldp": {"interface": [{f"swp{at}": {"via": "LLDP", "chassis": {"cx1": {
    "id": {"type": "mac", "value": "02:00:00:00:00:01"}}}, "port": {"id": {
        "type": "local", "value": "1/1/6"}, "descr": "1/1/5"}}} for at in (5, 6)]}})
NXOS = json.dumps({"TABLE_nbor_detail": {"ROW_nbor_detail": [{
    "chassis_id": "0200.0000.0001", "port_id": "1/1/6", "l_port_id": f"swp{at}", "sys_name": "cx1",
    "port_desc": "1/1/5"} for at in (5, 6)]}, "neigh_count": "2"})
MOVED = ["swp5  wrong: wants cx1 1/1/5, has cx1 1/1/6 (planned at swp6)",
         "2 cables: 1 right, 1 wrong"]
PORT_IDS = (
    situation("a planned Port ID of lldpcli's counts before a description", CX,
              {"leaf1": OF_LLDPCLI}, 1, MOVED),
    situation("one of NX-OS", CX, {"leaf1": NXOS}, 1, MOVED),
    situation("a number by NAPALM", NUMBERS, {"leaf1": "swp5 cx1 6 c 5\nswp6 cx1 6 c 5"}, 1,
              [line.replace("1/1/", "") for line in MOVED]),
    situation("one that no plan names does not count", CX,
              {"leaf1": "swp5 cx1 17 c 1/1/5\nswp6 cx1 18 c 1/1/6"}, 0,
              ["2 cables: 0 right, 2 right by description, 0 wrong"]),
)
SW1 = HEAD + "a,1,sw1,p1\na,2,sw1,p2\n"
DC = HEAD + "a,1,sw1.dc1,p1\na,2,sw1.dc2,p1\n"
NAMES = [
    situation(name, plan, {"a": seen}, status, lines, "--short-names")
    for name, plan, seen, status, lines in (
        ("two domains answer by one planned name", SW1, "1 sw1.dc1 p1\n2 sw1.dc2 p2", 1,
         ["sw1  doubled: seen as sw1.dc1 at a 1, sw1.dc2 at a 2", "2 cables: 0 right, 2 wrong"]),
        ("one domain does", SW1, "1 sw1.dc1 p1\n2 sw1 p2", 0, ["2 cables: 2 right, 0 wrong"]),
        ("a name without a domain would stand for two devices", DC, "1 sw1 p1\n2 sw1.dc2 p1", 2,
         ["plan: line 3: sw1.dc2 would be one host with sw1.dc1 in line 2 with --short-names"]),
        ("domains are not compared if one has none", DC.replace("sw1.dc2", "sw2.dc2"),
         "1 sw1 p1\n2 sw2.dc2 p1", 0, ["2 cables: 2 right, 0 wrong"]),
        ("the domain is another one", HEAD + "a,1,sw1.dc1,p1\n", "1 sw1.dc9 p1", 1,
         ["1  wrong: wants sw1.dc1 p1, has sw1.dc9 p1 (only the domain differs)",
          "1 cable: 0 right, 1 wrong"]))]
PAIR = HEAD + "leaf1,swp1,host01,eth0\n"
RUNNERS = (
    situation("planned ports alone", PAIR, {"leaf1": "swp1 host01 eth0\nswp2 x y"}, 0,
              ["1 cable: 1 right, 0 wrong"], "--planned-only"),
    situation("commands of GitHub and of Azure", HEAD + "::set-output,1,b,1\nc,1,d,1\n", {
        "::set-output": "1 ##vso[task.x]y 1\n2 ##vso[task.x]z 1", "c": "1 d 1"}, 1, [
            "\\x3a:set-output 1  wrong: wants b 1, has #\\x23vso[task.x]y 1",
            "\\x3a:set-output 2  unplanned: has #\\x23vso[task.x]z 1",
            "2 cables: 1 right, 1 wrong; 1 unplanned port"]),
)
SIDES = "a,1,b,1,cat6,connected\n"
FOUR = 'a,swp1,b,"1, 2,3 , 4",aoc,connected\n'
NETBOX = (
    situation("a breakout whose lanes are known", CABLES + FOUR, {"a": "".join(
        f"swp1s{lane} b {at}\n" for lane, at in enumerate((2, 1, 4, 3)))}, 0,
        ["4 cables: 4 right, 0 wrong"]),
    situation("a breakout of which two lanes are heard", CABLES + FOUR,
              {"a": "swp1s1 b 3\nswp1s0 b 4"}, 1, [
        "swp1:?1  silent: wants b 1", "swp1:?2  silent: wants b 2",
        "4 cables: 2 right, 2 wrong"]),
    situation("a breakout with a stranger, and one that comes twice", CABLES + FOUR, {
        "a": "swp1s0 b 2\nswp1s1 x 1\nswp1s2 b 2\nswp1s3 b 4"}, 1, [
            "swp1s1  wrong: wants b 1, has x 1",
            "swp1s2  wrong: wants b 3, has b 2 (planned at swp1s0)",
            "4 cables: 2 right, 2 wrong"]),
    situation("lanes in another spelling", CABLES + FOUR.replace(
        "a,swp1,", "a,Ethernet1/1,").replace('"1, 2,3 , 4"', '"1,2"'),
        {"a": "Eth1/1/1 b 2\nEth1/1/2 b 1"}, 0, ["2 cables: 2 right, 0 wrong"]),
    situation("a breakout that is seen from the lanes' side", CABLES + FOUR, {
        "b": "1 a swp1s0\n2 a swp1s1\n3 a swp1s3\n4 x y"}, 1, [
            "4  wrong: wants a swp1:?1, has x y", "4 cables: 3 right, 1 wrong"]),
    situation("a breakout that is listed as one port", CABLES + FOUR, {
        "a": "swp1 b 4\nswp1 b 3\nswp1 b 2\nswp1 b 1",
        "b": "1 a swp1\n2 a swp1\n3 a swp1\n4 a swp1"}, 0,
        ["4 cables: 4 right, 0 wrong"]),
    situation("cables that cannot be judged", CABLES + SIDES + (
        "a,2,,,cat6,connected\n,,b,2,cat6,connected\na,PSU1,pdu1,Outlet 3,,connected\n"
        "a,con 0,cs1,1,cat5,connected\na,5,b,5,cat6,Planned\na,6,b,6,cat6,decommissioning\n"
        'a,7,b,"7,8,9",cat6,connected\n').replace("a,7,b", 'a,"7,8",b'), {"a": "1 b 1"}, 3, [
            "plan: 6 cables are left out: 2 with an end that is not a port of a device, 2 for "
            "power or consoles, 2 with the status planned or decommissioning",
            "plan: 1 cable cannot be judged, since the ends cannot be paired; the first ends are "
            "a 7, a 8, b 7", "2 cables: 1 right, 0 wrong, 1 not judged"]),
    situation("several ends at both sides", CABLES + 'a,"1,2",b,"1, 2",dac,connected\n',
              {"a": "1 b 2\n2 b 1"}, 1, ["1  swapped with 2: wants b 1, has b 2",
                                         "2 cables: 0 right, 2 wrong"]),
)
FOUR_EACH = HEAD + "".join(f"leaf{1 + at % 2},swp{at // 2 + 1},s1,e{at}\n"
                           f"leaf{1 + at % 2},swp{at // 2 + 3},s2,e{at}\n" for at in range(4))
SEEN = {f"leaf{1 + side}": "".join(f"swp{at // 2 + 3} s1 e{at}\nswp{at // 2 + 1} s2 e{at}\n"
                                   for at in range(4) if at % 2 == side) for side in (0, 1)}
OWN = {host: "".join(f"e{at} leaf{1 + at % 2} swp{at // 2 + first}\n" for at in range(4))
       for host, first in (("s1", 3), ("s2", 1))}
RIGHT = {"s1": OWN["s2"], "s2": OWN["s1"]}
NO_JSON = "it begins like JSON, but is not valid JSON"
EXCHANGED = ["s1  exchanged with s2: each is seen at links planned for the other (4 for s1, 4 "
             "for s2)", "8 cables: 0 right, 8 wrong"]
HOSTS = (
    situation("two servers in each other's place", FOUR_EACH, SEEN, 1, EXCHANGED),
    situation("seen by themselves too", FOUR_EACH, {**SEEN, **OWN}, 1, EXCHANGED),
    situation("a list that cannot be read", FOUR_EACH, {**RIGHT, "leaf1": "{"}, 3, [
        f"lists/leaf1: {NO_JSON}", f"leaf1  no data at 4 of 4 ports (lists/leaf1: {NO_JSON})",
        "8 cables: 8 right, 0 wrong"]),
    situation("a host that is down", FOUR_EACH, {"leaf1": "swp1 s1 e0\nswp2 s1 e2",
                                                 "leaf2": "swp1 s1 e1\nswp2 s1 e3"}, 1, [
        "s2  silent at all 4 links that were looked at", "8 cables: 4 right, 4 wrong"]),
)
IN_JSON = '{{"ports": [{{"name": "1", "neighbors_held": 0, "neighbors": [], "too_many": {}}}]}}'
EMPTY = "lldp.{0}.neighbors=0\nlldp.{0}.octets=0\nlldp.{0}.too-many={1}\n"
TWO_PORTS = HEAD + "leaf1,swp1,host01,eth0\nleaf1,swp2,host01,eth1\n"
TO_SWP2 = "swp1  wrong: wants host01 eth0, has host01 eth1 (planned at swp2)"
BOND = HEAD + "".join(f"leaf1,swp{at},host01,eth{at - 1}\n" for at in range(1, 5))
ALIASES = {"aliases": "host,port,alias\nhost01,eth0,bond0\nhost01,eth1,bond0\n"}
LANES = HEAD + "".join(f"leaf1,swp1s{at},leaf2,swp1s{at}\n" for at in range(4))
RUN = HEAD + "".join(f"s,p{at},x{at},e0\n" for at in range(6))
MORE = (
    situation("two chassis IDs of one name", SW1 + "a,3,sw1,p3\n",
              {"a": "1 sw1 p1 c1 -\n2 sw1 p2 c2 -\n3 sw1 p3 c2 -"}, 0, [
                  "sw1 is heard with 2 chassis IDs (c1 at a 1 and c2 at a 3): two devices may have "
                  "the same name", "3 cables: 3 right, 0 wrong"]),
    situation("a label like a comment", "label," + HEAD + "#17,leaf1,swp1,host01,eth0\n"
              "# of rack 2\n#18,leaf1,swp2,host01,eth1\n",
              {"leaf1": neighbor("swp1", "host09", "eth9")}, 1, [
                  "swp1  wrong: wants host01 eth0, has host09 eth9",
                  "swp2  no data: wants host01 eth1",
                  "2 cables: 0 right, 1 wrong, 1 not looked at (host01)"]),
    situation("a comment that takes rows with it", HEAD + '# old,"5\nleaf1,swp1,host01,eth0\n"\n',
              {"leaf1": "swp1 x y"}, 2,
              ["plan: line 2: the comment has a quote that ends in a later line"]),
    *[situation(f"a description beside {kind}", TWO_PORTS, {"leaf1": neighbor(
        "swp1", "host01", "eth1", "eth0", kind) + EMPTY.format("swp2", "no")}, 1, [
            TO_SWP2, "swp2  silent: wants host01 eth1 (seen at swp1)",
            "2 cables: 0 right, 2 wrong"]) for kind in ("ifname", "ifalias")],
    situation("a description beside a port that no plan names", HEAD + "leaf1,swp1,host01,eth0\n",
              {"leaf1": neighbor("swp1", "host01", "enp3s0", "eth0")}, 0,
              ["1 cable: 0 right, 1 right by description, 0 wrong"]),
    situation("an alias of two members", BOND, {"leaf1": neighbor(
        "swp1", "host01", "bond0", aggregate=7) + neighbor("swp3", "host01", "bond0", aggregate=7)},
        1, ["swp2  no data: wants host01 eth1 (seen at swp3)",
            "swp3  wrong: wants host01 eth2, has host01 bond0",
            "swp4  no data: wants host01 eth3",
            "4 cables: 1 right, 1 wrong, 2 not looked at (host01)"],
        "--vendor-names --aliases aliases", ALIASES),
    situation("a bundle moved with its cables, in which the first of the plan is named", HEAD
              + "a,1,c,1\nz,1,b,1\ny,1,b,2\n", {
                  "a": neighbor("1", "b", "Po1", aggregate=7),
                  **dict.fromkeys("yz", neighbor("1", "c", "Po1", aggregate=7))}, 1, [
                      "a 1  swapped with z 1: wants c 1, has b 1",
                      "b    is heard as c at all 2 links whose other end hears a neighbor",
                      "3 cables: 0 right, 3 wrong"], "--vendor-names"),
    *[situation("a full table that is empty", HEAD + "a,1,b,1\n", {"a": table}, 1, [
        "1  wrong: wants b 1, has a neighbor that did not fit in the table",
        "1 cable: 0 right, 1 wrong"])
      for table in (EMPTY.format(1, "yes"), IN_JSON.format("true"))],
    situation("an empty table that has room", HEAD + "a,1,b,1\n", {"a": IN_JSON.format("false")}, 1,
              ["1  silent: wants b 1", "1 cable: 0 right, 1 wrong"]),
    situation("neither side is broken out", LANES, {
        "leaf1": neighbor("swp1", "leaf2", "swp1"),
        "leaf2": neighbor("swp1", "leaf1", "swp1")}, 1, [
        "leaf1 swp1  not broken out: the plan has swp1s0 to swp1s3",
        "leaf2 swp1  not broken out: the plan has swp1s0 to swp1s3",
        "4 cables: 0 right, 0 wrong, 4 not looked at; 2 unplanned ports"]),
    situation("a port that is not broken out, to which no cable was moved",
              HEAD + "a,swp1s0,b,1\na,swp1s1,b,2\n", {"a": "swp1 b 1"}, 1, [
                  "swp1  not broken out: the plan has swp1s0 to swp1s1",
                  "2 cables: 0 right, 2 wrong; 1 unplanned port"]),
    situation("a loop at the other host, to which no cable was moved", HEAD + "a,1,b,1\n",
              {"a": "1", "b": "1 b 9\n9 b 1"}, 1, [
                  "b 1  a loop: joined to b 9, of the same host",
                  "1 cable: 0 right, 1 wrong; 1 unplanned port"]),
    situation("two runs that meet", RUN, {"s": "".join(
        f"p{at} x{has} e0\n" for at, has in enumerate([1, 2, 3, 2, 3, 4]))}, 1, [
            "p0 to p2  shifted by one: each has the neighbor that the next port wants",
            "p4        wrong: wants x4 e0 (seen at p5), has x3 e0 (planned at p3)",
            "p5        wrong: wants x5 e0, has x4 e0 (planned at p4)",
            "6 cables: 0 right, 6 wrong"]),
)
ROWS = (BETWEEN_PANELS, *MORE, *BY_LINK, *KNOWN_FAULTS, *PANELS, *PORT_IDS, *NAMES, *RUNNERS,
        *NETBOX, *HOSTS)
