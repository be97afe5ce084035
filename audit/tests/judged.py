"""For tests: cables that the audit once judged wrongly, each with what it must print."""
import gzip
import json
import os
import time
from pathlib import Path
from typing import Any

from auditing import HEAD, Row
from shapes import cable_between
from situations import CABLES, SIDES, SW1, TYPED, situation

TWO = HEAD + "leaf1,swp7,host07,eth0\nleaf1,swp8,host08,eth0\n"
ONE_LIST = {"leaf1": "swp7\nswp8 host08 eth0\nswp17 host07 eth0"}
BOTH_LISTS = {**ONE_LIST, "host07": "eth0 leaf1 swp17"}
MOVED = "moved: host07 eth0 is at {0}swp17, wants {0}swp7"
ONE_WRONG = "2 cables: 1 right, 1 wrong"
MOVES = (
    situation("a moved cable", TWO, ONE_LIST, 1, [f"swp7  {MOVED.format('')}", ONE_WRONG]),
    situation("a moved cable, by planned ports alone", TWO, ONE_LIST, 1,
              [f"swp7  {MOVED.format('')}", ONE_WRONG], "--planned-only"),
    situation("a moved cable that both ends see", TWO, BOTH_LISTS, 1,
              [f"leaf1 swp7  {MOVED.format('leaf1 ')}", ONE_WRONG]),
    situation("a cable moved to another switch", TWO, {
        "leaf1": "swp7\nswp8 host08 eth0", "leaf2": "swp17 host07 eth0"}, 1, [
            "plan has no cable of the host leaf2 that can be judged: if the file is of another "
            "host, write HOST:FILE, such as leaf1:lists/leaf2",
            "leaf1 swp7  moved: host07 eth0 is at leaf2 swp17, wants leaf1 swp7", ONE_WRONG]),
    situation("a moved cable whose other end hears somebody else", TWO,
              {**ONE_LIST, "host07": "eth0 x y"}, 1, [
                  f"leaf1 swp7  {MOVED.format('leaf1 ')}; host07 eth0 has x y", ONE_WRONG]),
    situation("a moved cable whose other end hears nobody", TWO, {**ONE_LIST, "host07": "eth0"}, 1,
              [f"leaf1 swp7  {MOVED.format('leaf1 ')}; host07 eth0 hears nobody", ONE_WRONG]),
    situation("a host that is seen at two ports was not moved", TWO,
              {"leaf1": ONE_LIST["leaf1"] + "\nswp18 host07 eth0"}, 1, [
                  "swp7   silent: wants host07 eth0 (seen at swp17)",
                  "swp17  unplanned: has host07 eth0 (planned at swp7)",
                  "swp18  unplanned: has host07 eth0 (planned at swp7)",
                  f"{ONE_WRONG}; 2 unplanned ports"]),
    situation("nor one in another cable's place", TWO, {"leaf1": "swp8 host07 eth0"}, 1, [
        "swp7  silent: wants host07 eth0 (seen at swp8)",
        "swp8  wrong: wants host08 eth0, has host07 eth0 (planned at swp7)",
        "2 cables: 0 right, 2 wrong"]),
    situation("nor one that a planned port hears, too", TWO,
              {"leaf1": "swp8 host07 eth0\nswp17 host07 eth0"}, 1, [
                  "swp7   silent: wants host07 eth0 (seen at swp8)",
                  "swp8   wrong: wants host08 eth0, has host07 eth0 (planned at swp7)",
                  "swp17  unplanned: has host07 eth0 (planned at swp7)",
                  "2 cables: 0 right, 2 wrong; 1 unplanned port"]),
    situation("nor one behind a hub", TWO, {
        "leaf1": "swp8 host08 eth0\nswp17 host07 eth0\nswp17 x y"}, 1, [
            "swp7   silent: wants host07 eth0 (seen at swp17)",
            "swp17  unplanned: has host07 eth0 (planned at swp7) and x y",
            f"{ONE_WRONG}; 1 unplanned port"]),
    situation("nor a port in another spelling", TWO, {"leaf1": "Swp7 host07 eth0\nswp8 host08 eth0"
                                                      }, 1, [
        "Swp7  unplanned: has host07 eth0 (planned at swp7)",
        "swp7  silent: wants host07 eth0 (seen at Swp7) (there is a port Swp7: only the case "
        "differs)", f"{ONE_WRONG}; 1 unplanned port"]),
)
OF_1 = CABLES + 'a,Ethernet1/1,b,"1,2",aoc,connected\n'
BREAKOUTS = (
    situation("the port beside a breakout is not a lane of it",
              OF_1 + "a,Ethernet1/2,c,1,aoc,connected\n",
              {"a": "Ethernet1/1/1 b 1\nEthernet1/2 c 1"}, 1, [
                  "Ethernet1/1:?1  silent: wants b 2", "3 cables: 2 right, 1 wrong"]),
    situation("a lane's cable in the port beside it", OF_1,
              {"a": "Ethernet1/1/1 b 1\nEthernet1/3 b 2"}, 1, [
                  "Ethernet1/1:?1  moved: b 2 is at Ethernet1/3, wants Ethernet1/1:?1",
                  "2 cables: 1 right, 1 wrong"]),
    situation("and seen from its side", OF_1, {"b": "1 a Ethernet1/1/1\n2 a Ethernet1/3"}, 1, [
        "2  wrong: wants a Ethernet1/1:?1, has a Ethernet1/3", "2 cables: 1 right, 1 wrong"]),
    situation("a planned port is not a lane", OF_1 + "a,Ethernet1/1/2,c,1,aoc,connected\n",
              {"a": "Ethernet1/1/1 b 1\nEthernet1/1/2 b 2"}, 1, [
                  "Ethernet1/1/2   wrong: wants c 1, has b 2 (planned at Ethernet1/1:?1)",
                  "Ethernet1/1:?1  silent: wants b 2 (seen at Ethernet1/1/2)",
                  "3 cables: 1 right, 2 wrong"]),
    situation("a lane that nobody saw has the name of no other lane",
              OF_1.replace("Ethernet1/1", "et-0/0/1"), {"b": "1 a et-0/0/1:2\n2 x y"}, 1, [
                  "2  wrong: wants a et-0/0/1:?1, has x y", "2 cables: 1 right, 1 wrong"]),
    situation("EOS' lanes, the first of which has the name of the whole port",
              CABLES + 'a,Ethernet49/1,b,"1,2,3,4",aoc,connected\n',
              {"a": "".join(f"Ethernet49/{at} b {at}\n" for at in range(1, 5))}, 0,
              ["4 cables: 4 right, 0 wrong"]),
    *[situation(f"lanes of another speed of {whole}", CABLES + f'a,{whole},b,"1,2",aoc,connected\n',
                {"a": f"{lane.format(0)} b 1\n{lane.format(1)} b 2"}, 0,
                ["2 cables: 2 right, 0 wrong"])
      for whole, lane in (("et-0/0/48", "xe-0/0/48:{}"),
                          ("HundredGigE0/0/0/1", "TenGigE0/0/0/1/{}"),
                          ("100GE1/0/1", "25GE1/0/1:1{}"),
                          ("FortyGigE1/0/1", "Ten-GigabitEthernet1/0/1:1{}"))],
    situation("lanes of SONiC, by their sums", CABLES + 'a,Ethernet4,b,"1,2",aoc,connected\n',
              {"a": "Ethernet4 b 1\nEthernet6 b 2"}, 0, ["2 cables: 2 right, 0 wrong"]),
    *[situation(f"it is unknown whether {port} is a lane of {whole}",
                CABLES + f'a,{whole},b,"1,2",aoc,connected\n', {"a": f"{first} b 1\n{port} b 2"},
                status, [f"plan: {links}", *lines])
      for whole, first, port, status, links, lines in (
          ("foo7", "foo7.1", "foo7.2", 3, "2 links of breakout cables cannot be judged, since it "
           "is unknown how the lanes are named: a foo7 with b 1, a foo7 with b 2",
           ["2 cables: 0 right, 0 wrong, 2 not judged"]),
          ("swp1", "swp1s0", "swp1_1", 3, "1 link of breakout cables cannot be judged, since it is "
           "unknown how the lanes are named: a swp1 with b 2",
           ["2 cables: 1 right, 0 wrong, 1 not judged"]))],
    situation("two ends hear the same lane", OF_1,
              {"b": "1 a Ethernet1/1/2\n2 a Ethernet1/1/2"}, 1, [
                  "2  wrong: wants a Ethernet1/1:?1, has a Ethernet1/1/2 (planned at 1)",
                  "2 cables: 1 right, 1 wrong"]),
    situation("an end of a breakout is planned twice", OF_1 + "c,1,b,2,aoc,connected\n", {"a": ""},
              2, [
        "plan: line 2: b 2 is already planned in line 3"]),
    situation("a Port ID that a breakout plans counts before a description", OF_1, {
        "a": "Ethernet1/1/1 b 2 c 1\nEthernet1/1/2 b 1 c 2"}, 0, ["2 cables: 2 right, 0 wrong"]),
    situation("aliases beside a breakout", OF_1 + "c,1,d,1,aoc,connected\n", {
        "a": "Ethernet1/1 b 1\nEthernet1/1 b 2", "b": "1 a Ethernet1/1\n2 a Ethernet1/1",
        "c": "1 d uplink"}, 0, ["3 cables: 3 right, 0 wrong"], "--aliases aliases",
              {"aliases": "host,port,alias\nd,1,uplink\n"}),
    situation("a port of too many lanes",
              CABLES + f'a,1,b,"{",".join(map(str, range(17)))}",aoc,connected\n', {"a": ""}, 2,
              ["plan: line 2: a 1 has more than 16 lanes"]),
)
CISCO = {"a": "1 sw1.lab p1 001c.7341.2b3c -\n2 sw1.lab p2 001c.7341.2b3d -"}
DOMAINS = (
    situation("a chassis ID of Cisco's has no domain", SW1, CISCO, 0, [
        "sw1 is heard with 2 chassis IDs (001c.7341.2b3c at a 1 and 001c.7341.2b3d at a 2): two "
        "devices may have the same name", "2 cables: 2 right, 0 wrong"], "--short-names"),
    situation("nor has a chassis ID that is a text", SW1,
              {"a": "1 sw1.lab p1 card.1 -\n2 sw1.lab p2 card.2 -"}, 0, [
                  "sw1 is heard with 2 chassis IDs (card.1 at a 1 and card.2 at a 2): two devices "
                  "may have the same name", "2 cables: 2 right, 0 wrong"], "--short-names"),
    situation("nor if it is the neighbor's only name", HEAD + "a,1,001c.7341.2b3c,1\n",
              {"a": "1 001c.9999.9999 1"}, 1, [
                  "1  wrong: wants 001c.7341.2b3c 1, has 001c.9999.9999 1",
                  "1 cable: 0 right, 1 wrong"], "--short-names"),
)
SPELLINGS = ("02:00:00:00:00:B2", "02:00:00:00:00:b2", "0200.0000.00b2", "02-00-00-00-00-B2",
             "0x0200000000b2", "02 00 00 00 00 b2", "")
CHASSIS = (
    Row("one chassis ID in several spellings", {
        "plan": HEAD + "".join(f"a,{at},sw1,p{at}\n" for at in range(len(SPELLINGS))),
        "a": json.dumps({at: [{"hostname": "sw1", "port": f"p{at}", "remote_chassis_id": chassis,
                               "remote_system_name": "sw1", "remote_port": f"p{at}",
                               "remote_port_description": ""}]
                         for at, chassis in enumerate(SPELLINGS)})}, "plan a", 0,
        ["7 cables: 7 right, 0 wrong"]),
)
UNPAIRED = CABLES + SIDES + 'a,"7,8",b,"7,8,9",cat6,connected\n'
NOT_PAIRED = ("plan: 1 cable cannot be judged, since the ends cannot be paired; the first ends are "
              "a 7, a 8, b 7")
NOT_JUDGED = "2 cables: 1 right, 0 wrong, 1 not judged"
ALL_DATA = "ID,Label,Termination A,Termination B,Device A,Device B,Rack A,Rack B,Status,Type\n"
PANELED = ALL_DATA + "".join(f"{at},,{one},{other},{host},{peer},r1,r2,Connected,CAT6\n"
                             for at, (host, one, peer, other) in enumerate((
                                 ("leaf1", "swp1", "pp1", "F1"), ("pp1", "R1", "pp2", "R1"),
                                 ("pp2", "F1", "srv1", "e0"), ("leaf1", "swp2", "pp1", "F2"),
                                 ("pp1", "R2", "pp2", "R2"), ("pp2", "F2", "srv2", "e0"),
                                 ("leaf1", "swp3", "srv3", "e0"), ("leaf1", "swp4", "nas", "e0"))))
IF_PANELS = "plan: if pp1, pp2 are panels, give --panels with NetBox's export of front ports"
BYPASSED = (
    ("NetBox's table", ALL_DATA + "1,,swp1,p1,leaf1,fw1,r,r,Connected,CAT6\n"
     "2,,swp1,p2,leaf2,fw1,r,r,Connected,CAT6\n3,,swp2,e0,leaf1,x,r,r,Connected,CAT6\n"),
    ("CSV", HEAD + "leaf1,swp1,fw1,p1\nleaf2,swp1,fw1,p2\nleaf1,swp2,x,e0\n"),
    ("DOT", "graph { leaf1:swp1 -- fw1:p1 leaf2:swp1 -- fw1:p2 leaf1:swp2 -- x:e0 }"))


def page(ids: range, count: int, following: Any = None) -> Any:
    """Returns a page of the API's cables, `a N` to `b N` for each of these numbers N."""
    return {"count": count, "next": following, "results": [
        cable_between(at, [("a", str(at))], [("b", str(at))]) for at in ids]}


def of_the_api(name: str, tree: Any, status: int, lines: Any) -> Row:
    seen = json.dumps({str(at): [{"hostname": "b", "port": str(at)}] for at in range(3)})
    return Row(name, {"plan": json.dumps(tree), "a": seen}, "plan a", status, lines)


def old_list(path: Path) -> None:
    """Writes a list that is somewhat older than two days."""
    path.write_text("{}")
    seconds = time.time() - 2.5 * 86400
    os.utime(path, (seconds, seconds))


GET_ALL = "ask NetBox with ?limit=0, or put all pages into one list"
SENDS_NONE = {"known": "host,port,reason,until\nsrv1,,sends no LLDP,\n"}
ALL_MEANS_ALL = (
    situation("ends that cannot be paired, in an audit of a part", UNPAIRED,
              {"a": "1 b 1\n7 b 8"}, 0, [NOT_PAIRED, NOT_JUDGED], "--partial"),
    situation("ends that cannot be paired", UNPAIRED, {"a": "1 b 1"}, 3, [NOT_PAIRED, NOT_JUDGED]),
    of_the_api("a whole answer", page(range(3), 3), 0, ["3 cables: 3 right, 0 wrong"]),
    of_the_api("all pages of an answer", [page(range(2), 3, "x"), page(range(2, 3), 3)], 0,
               ["3 cables: 3 right, 0 wrong"]),
    of_the_api("a page is missing", page(range(2), 3), 2,
               [f"plan: it has 2 of 3 cables: {GET_ALL}"]),
    of_the_api("a page comes twice", [page(range(2), 4, "x"), page(range(2), 4)], 2,
               [f"plan: it has 2 of 4 cables: {GET_ALL}"]),
    situation("all data with panels, and without --panels", PANELED, {
        "leaf1": "swp1 srv1 e0\nswp2 srv2 e0\nswp3 srv3 e0"}, 1, [
            IF_PANELS, "swp1  wrong: wants pp1 F1, has srv1 e0 (planned at pp2 F1)",
            "swp2  wrong: wants pp1 F2, has srv2 e0 (planned at pp2 F2)",
            "swp4  silent: wants nas e0",
            "8 cables: 1 right, 3 wrong, 4 not looked at (pp2, pp1, srv1, 1 more)"]),
    situation("a wrong cable beside panels", PANELED, {
        "leaf1": "swp1 srv1 e0\nswp2 srv2 e0\nswp3 x y\nswp4 srv3 e0"}, 1, [
            IF_PANELS, "swp1  wrong: wants pp1 F1, has srv1 e0 (planned at pp2 F1)",
            "swp2  wrong: wants pp1 F2, has srv2 e0 (planned at pp2 F2)",
            "swp3  wrong: wants srv3 e0 (seen at swp4), has x y",
            "swp4  wrong: wants nas e0, has srv3 e0 (planned at swp3)",
            "8 cables: 0 right, 4 wrong, 4 not looked at (pp2, pp1, srv1, 1 more)"]),
    *[situation(f"a firewall that a cable bypasses, in {form}", plan, {
        "leaf1": "swp1 leaf2 swp1\nswp2 x e0", "leaf2": "swp1 leaf1 swp1"}, 1, [
            "plan: if fw1 is a panel, give --panels with NetBox's export of front ports",
            "leaf1 swp1  wrong: wants fw1 p1, has leaf2 swp1 (planned at fw1 p2)",
            "leaf2 swp1  wrong: wants fw1 p2, has leaf1 swp1 (planned at fw1 p1)",
            "3 cables: 1 right, 2 wrong"]) for form, plan in BYPASSED],
    situation("a device that types say is no panel", TYPED + "".join(
        f"{host},dcim.interface,{port},fw1,dcim.interface,p{at}\n"
        for at, (host, port) in enumerate((("leaf1", "swp1"), ("leaf2", "swp1")))), {
            "leaf1": "swp1 leaf2 swp1", "leaf2": "swp1 leaf1 swp1"}, 1, [
                "leaf1 swp1  wrong: wants fw1 p0, has leaf2 swp1 (planned at fw1 p1)",
                "leaf2 swp1  wrong: wants fw1 p1, has leaf1 swp1 (planned at fw1 p0)",
                "2 cables: 0 right, 2 wrong"]),
    situation("a wrong cable without panels", ALL_DATA + "1,,p1,e0,leaf1,nas1,r,r,Connected,CAT6\n"
              "2,,p2,e0,leaf1,nas2,r,r,Connected,CAT6\n3,,e0,e0,srv9,nas3,r,r,Connected,CAT6\n",
              {"leaf1": "p1 srv9 e0\np2 x y"}, 1, [
                  "p1  wrong: wants nas1 e0, has srv9 e0 (planned at nas3 e0)",
                  "p2  wrong: wants nas2 e0, has x y",
                  "3 cables: 0 right, 2 wrong, 1 not looked at (nas3, srv9)"]),
    Row("an old list is not excused by a known server", {
        "plan": HEAD + "leaf1,swp1,srv1,e0\n", "leaf1": old_list, **SENDS_NONE},
        "--stale-after file:1d --known known plan leaf1", 3, [
            "swp1  no data: wants srv1 e0 (leaf1: it is 2 days old)",
            "1 cable: 0 right, 0 wrong, 1 not looked at (srv1)"]),
    situation("silence at the same end is", HEAD + "leaf1,swp1,srv1,e0\n", {"leaf1": ""}, 0,
              ["1 cable: 0 right, 0 wrong, 1 known"], "--known known", SENDS_NONE),
    situation("a list of another host that cannot be read is not", HEAD + "leaf1,swp1,srv1,e0\n",
              {"leaf1": "{"}, 3, [
                  "lists/leaf1: it begins like JSON, but is not valid JSON",
                  "swp1  no data: wants srv1 e0 (lists/leaf1: it begins like JSON, but is not "
                  "valid JSON)", "1 cable: 0 right, 0 wrong, 1 not looked at (srv1)"],
              "--known known", SENDS_NONE),
)
ONE = HEAD + "leaf1,swp1,srv1,eth0\n"
SPELLED = (
    situation("a letter of another alphabet", ONE, {"leaf1": "swp1 \u0455rv1 eth0"}, 1, [
        "swp1  wrong: wants srv1 eth0, has \u0455rv1 eth0 (\u0455 is CYRILLIC SMALL LETTER DZE)",
        "1 cable: 0 right, 1 wrong"]),
    situation("one in the plan", HEAD + "leaf1,swp1,srv1,\u0435th0\n", {"leaf1": "swp1 srv1 eth0"},
              1, ["swp1  wrong: wants srv1 \u0435th0, has srv1 eth0 (\u0435 is CYRILLIC SMALL "
                  "LETTER IE)", "1 cable: 0 right, 1 wrong"]),
    situation("another letter besides", ONE, {"leaf1": "swp1 \u0455rv2 eth0"}, 1, [
        "swp1  wrong: wants srv1 eth0, has \u0455rv2 eth0", "1 cable: 0 right, 1 wrong"]),
    *[situation(f"{name} is Ethernet1 if case is ignored", HEAD + f"leaf1,{name},srv1,eth0\n",
                {"leaf1": "Ethernet1 srv1 eth0\neth1 srv2 eth0"}, 1, [
                    "eth1  unplanned: has srv2 eth0", "1 cable: 1 right, 0 wrong; 1 unplanned port"
                ], "--vendor-names --ignore-case") for name in ("Eth1", "ETHERNET1", "et1")],
    situation("a loop of ports that the plan spells in another way",
              HEAD + "leaf1,Et1,srv1,eth0\nleaf1,Et2,srv2,eth0\n",
              {"leaf1": "Ethernet1 leaf1 Ethernet2\nEthernet2 leaf1 Ethernet1"}, 1, [
                  "Et1  a loop: joined to Et2, of the same host", "2 cables: 0 right, 2 wrong"],
              "--vendor-names"),
    situation("a loop to a port that is not planned", HEAD + "leaf1,Et1,srv1,eth0\n",
              {"leaf1": "Ethernet1 leaf1 Ethernet2\nEthernet2 leaf1 Ethernet1"}, 1, [
                  "Et1  a loop: joined to Ethernet2, of the same host",
                  "1 cable: 0 right, 1 wrong; 1 unplanned port"], "--vendor-names"),
)
TAGGED = ALL_DATA + ("1,,swp1,e0,leaf1 (A0017),srv1 (A 1),r,r,Connected,CAT6\n"
                     "2,,swp2,e0,leaf1 (A0017),Model (7),r,r,Connected,CAT6\n"
                     "3,,swp3,e0,leaf1 (A0017),Model (8),r,r,Connected,CAT6\n")
NOTED = "host,port,peer,peer_port,note\n"
PLANS = (
    situation("asset tags in NetBox's tables", TAGGED, {"leaf1": "swp1 srv1 e0\nswp2 x y"}, 1, [
        'swp2  wrong: wants "Model (7)" e0, has x y', 'swp3  silent: wants "Model (8)" e0',
        "3 cables: 1 right, 2 wrong"]),
    *[situation(f"Excel's separator {mark!r}", f"sep={mark}\n" + ONE.replace(",", mark),
                {"leaf1": "swp1 srv1 eth0"}, 0, ["1 cable: 1 right, 0 wrong"]) for mark in ";|,"],
    situation("lines are counted behind it", "sep=;\n" + ONE.replace(",", ";") + "a;1;b\n",
              {"leaf1": ""}, 2, ["plan: line 4: its peer_port is missing"]),
    Row("a plan in gzip", {"plan": gzip.compress(ONE.encode()),
                           "leaf1": '{"swp1": [{"hostname": "srv1", "port": "eth0"}]}'},
        "plan leaf1", 0, ["1 cable: 1 right, 0 wrong"]),
    Row("one that is cut short", {"plan": gzip.compress(ONE.encode())[:-9], "leaf1": "{}"},
        "plan leaf1", 2, ["plan: its gzip data is cut short"]),
    Row("one that is damaged", {"plan": gzip.compress(ONE.encode())[:-8] + bytes(8), "leaf1": "{}"},
        "plan leaf1", 2, ["plan: its gzip data is damaged"]),
    Row("one that unpacks to very much", {"plan": gzip.compress(ONE.encode() + b"#" * (4 << 20)),
                                          "leaf1": "{}"},
        "plan leaf1", 2, ["plan: its gzip data unpacks to more than 4,194,304 octets"]),
    *[situation(f"{what} that end with CR", plan, {"leaf1": ""}, 2, [
        f"plan: line {line}: a line ends with CR alone: save the file with LF, or with CR and LF"])
      for what, plan, line in (("all lines", ONE.replace("\n", "\r"), 1),
                               ("some lines", ONE + ONE.replace("\n", "\r"), 3))],
    *[Row(f"a {what} that a {option} would overwrite", {
        "plan": ONE, "known": "host,port,reason,until\n",
        "lists/leaf1": '{"swp1": [{"hostname": "srv1", "port": "eth0"}]}'},
        f"--{option} {file} --known known plan lists", 2,
        [f"{file}: it is read, and is not overwritten"]) for what, file, option in (
            ("plan", "plan", "html"), ("list", "lists/leaf1", "junit"),
            ("list of known faults", "./known", "metrics"))],
    situation("a row that is commented out", ONE + "#leaf1,swp2,srv2,eth0\n",
              {"leaf1": "swp1 srv1 eth0"}, 0, [
                  "plan: 1 cable is left out: 1 in a line that begins with #",
                  "1 cable: 1 right, 0 wrong"]),
    situation("two stray quotes", NOTED + 'leaf1,swp1,srv1,eth0,"moved\nleaf1,swp2,srv2,eth0,\n'
              'leaf1,swp3,srv3,eth0,see above"\n', {"leaf1": "swp1 srv1 eth0"}, 2, [
                  "plan: line 2: a quoted field in it ends in line 4, and takes rows with it"]),
    situation("two stray quotes in two lines", NOTED + 'leaf1,swp1,srv1,eth0,"moved\n'
              'leaf1,swp2,srv2,eth0,here"\n', {"leaf1": "swp1 srv1 eth0"}, 2, [
                  "plan: line 2: a quoted field in it ends in line 3, and takes rows with it"]),
    situation("a row that two stray quotes make is not read", HEAD + "leaf1,swp1,srv1,eth0\n"
              'leaf1,swp1,"srv2,eth0\nleaf1,swp2,srv3,eth0\nleaf1,swp3",eth0\n',
              {"leaf1": "swp1 srv1 eth0"}, 2, [
                  "plan: line 3: a quoted field in it ends in line 5, and takes rows with it"]),
    situation("a note of two lines", "note," + HEAD + '"moved, in\nMay",leaf1,swp1,srv1,eth0\n',
              {"leaf1": "swp1 srv1 eth0"}, 0, ["1 cable: 1 right, 0 wrong"]),
)
OWN = HEAD + "".join(f"leaf1,Gi1/0/{at},srv{at},eth0\n" for at in (1, 2))
OWN_LISTS = {"leaf1": "".join(f"GigabitEthernet1/0/{at} srv{at}.lab eth0\n" for at in (1, 2))}
FIRST_AUDITS = (
    situation("short names of ports in a first audit", OWN, OWN_LISTS, 1, [
        "leaf1                 silent at all 2 links that were looked at (there is a port "
        "GigabitEthernet1/0/1: only the spelling differs: see --vendor-names)",
        *(f"GigabitEthernet1/0/{at}  unplanned: has srv{at}.lab eth0" for at in (1, 2)),
        "2 cables: 0 right, 2 wrong; 2 unplanned ports"]),
    situation("then those of hosts", OWN + "leaf1,Gi1/0/3,srv1,eth1\n", {
        "leaf1": OWN_LISTS["leaf1"] + "GigabitEthernet1/0/3 srv1.lab eth1\n"}, 1, [
            "Gi1/0/2  wrong: wants srv2 eth0, has srv2.lab eth0 (only the domain differs)",
            "srv1     is heard as srv1.lab at all 2 links whose other end hears a neighbor (only "
            "the domain differs: see --short-names)",
            "3 cables: 0 right, 3 wrong"], "--vendor-names"),
    situation("then all are right", OWN, OWN_LISTS, 0, ["2 cables: 2 right, 0 wrong"],
              "--vendor-names --short-names"),
)
SPELLED_LISTS = (
    *[situation(f"a complete list of {name}, which lacks a planned port", HEAD + (
        f"{planned},swp1,srv1,e0\n{planned},swp2,srv2,e0\n"), {name: "swp1 srv1 e0"}, 1, [
            "swp2  silent: wants srv2 e0", "2 cables: 1 right, 1 wrong"], words)
      for planned, name, words in (("LEAF1", "leaf1", "--ignore-case"),
                                   ("leaf1", "LEAF1", "--ignore-case"),
                                   ("leaf1", "leaf1.lab", "--short-names"),
                                   ("fe80::1", "FE80:0::1", "--vendor-names"))],
    situation("a run of three ports, and the one before it", HEAD + "".join(
        f"s,p{at},x{at},e0\n" for at in range(5)), {"s": "".join(
            f"p{at} x{at - 1} e0\n" for at in range(1, 5))}, 1, [
                "p1 to p4  shifted by one: each has the neighbor that the previous port wants",
                "5 cables: 0 right, 5 wrong"]),
    situation("a renamed host whose other links hear nobody", HEAD + "".join(
        f"leaf{at},p1,srv1,e{at}\n" for at in range(1, 5)), {
            "leaf1": "p1 web1 e1", "leaf2": "p1 web1 e2", "leaf3": "p1",
            "leaf4": "p1 other e9"}, 1, [
                "leaf3 p1  silent: wants srv1 e3",
                "leaf4 p1  wrong: wants srv1 e4, has other e9",
                "srv1      is heard as web1 at 2 of 3 links whose other end hears a neighbor",
                "4 cables: 0 right, 4 wrong"]),
)
ROWS = (*PLANS, *SPELLED_LISTS, *FIRST_AUDITS, *MOVES, *BREAKOUTS, *DOMAINS, *CHASSIS,
        *ALL_MEANS_ALL, *SPELLED)
