"""Tests plans in CSV, DOT and NetBox's forms: what is read from them, and what each fault says."""
import json
from argparse import ArgumentTypeError
from typing import List, Mapping, Optional

from auditing import HEAD, InAFolder
from lldpa_audit.names import Names
from lldpa_audit.plan import Plan, PlanFault
from lldpa_audit.planfile import read_plan
from lldpa_audit.words import columns
from shapes import cable_between

# the forms that ptmd's documentation of topology files shows
TOPOLOGY = """\
// the fabric
graph G {
    graph [hostidtype="hostname", version="1:0", date="06/26/2013"];
    node [shape=box];
    LLDP="match_hostname=fqdn"
    bfdtmpl1="upMinTx=150,requiredMinRx=250";
    "leaf1" [function="leaf" config="a ] b"];
    "leaf1":"swp1" -- "spine1":"swp3" [BFD="upMinTx=300,requiredMinRx=100", label="a -- b"];
    "leaf1":"swp2" -- "spine2":"swp3"
    leaf2:swp1 -- spine1:swp4; leaf2:swp2 -- "spine2":"swp4" [LLDP="match_type=portdescr"];
    /* "leaf9":"swp1" -- "spine9":"swp1"; of
       two lines */
    # "leaf8":"swp1" -- "spine8":"swp1"
    "qct-ly2-04.domain.com":"swp20" -- "cumulus":"swp44" // -- at the end
    "00:02:00:00:00:09":"eth0" -- "leaf 3":"Gi1/0/1";
    "leaf4":"swp1" -- "server\\"4\\"":"eth0";
    "leaf5":"swp1" -- "spine1":"swp5";
}
"""
LINKS_OF_TOPOLOGY = [
    "leaf1 swp1 - spine1 swp3", "leaf1 swp2 - spine2 swp3", "leaf2 swp1 - spine1 swp4",
    "leaf2 swp2 - spine2 swp4", "qct-ly2-04.domain.com swp20 - cumulus swp44",
    '00:02:00:00:00:09 eth0 - "leaf 3" Gi1/0/1', 'leaf4 swp1 - server"4" eth0',
    "leaf5 swp1 - spine1 swp5"]
NETBOX = '''\
side_a_device,side_a_type,side_a_name,side_b_device,side_b_type,side_b_name,type,status,label,color
leaf1,dcim.interface,swp1,host01,dcim.interface,eth0,cat6,connected,"1001
(moved)",
leaf1,dcim.interface,swp2,pp1,dcim.frontport,F2,cat6,connected,1002,
pdu1,dcim.poweroutlet,O1,leaf1,dcim.powerport,PSU1,power,connected,,
leaf1,dcim.interface,swp9,,,,cat6,connected,,
leaf1,dcim.interface,swp8,host01,dcim.interface,eth8,cat6,Planned,,
leaf1,dcim.interface,swp7,CID 7,circuits.circuittermination,Z,cat6,connected,,
cs1,dcim.consoleserverport,1,leaf1,dcim.consoleport,con,cat5,connected,,
'''
# plans, and the links of each
READ = (
    ("peer_port,Host,cable, port ,peer\neth0,leaf1,7,swp1,host01\n", ["leaf1 swp1 - host01 eth0"]),
    ('# a plan\n\nhost,port,peer,peer_port\n  # more\na, 1 ,"b,c","2 ""x"""\n,,,\n"#d",1,e,2#3\n',
     ['a 1 - b,c "2 "x""', "#d 1 - e 2#3"]),
    ("host;port;peer;peer_port\r\na;1;b;2;;\r\n", ["a 1 - b 2"]),
    ("host\tport\tpeer\tpeer_port\na\t1\tb\t2\n", ["a 1 - b 2"]),
    ('host, port, peer, peer_port\nleaf1, "swp1", "host01", "eth0"', ["leaf1 swp1 - host01 eth0"]),
    ('host,port,note,peer,peer_port\na,1,"two\n# lines\n\n",b,2\nc,3,"",d,4\n',
     ["a 1 - b 2", "c 3 - d 4"]),
    (HEAD + "a,1,b,2\nb,2,a,1\na,1,b,2\n", ["a 1 - b 2"]),
    ("# graph G {\nhost,port,peer,peer_port\ngraph,1,b,{\n", ["graph 1 - b {"]),
    (TOPOLOGY, LINKS_OF_TOPOLOGY),
    ("digraph { a:1 -> b:2 }", ["a 1 - b 2"]),
    ("Strict GRAPH G { a:1 -- b:2 }", ["a 1 - b 2"]),
    (NETBOX, ["leaf1 swp1 - host01 eth0"]),
    *[(f"{header},Label\nleaf1,swp1,host01,eth0,7\n", ["leaf1 swp1 - host01 eth0"]) for header in (
        "termination_a_device,termination_a_name,termination_b_device,termination_b_name",
        "Side A,Termination A,Side B,Termination B",
        "Device A,Termination A,Device B,Termination B",
        "termination_a_parent,termination_a,termination_b_parent,termination_b")],
    ('Device A,Termination A,Device B,Termination B\nl,"s1,s2",h,"e1, e2"\nl,"s3, s4","h,i",e\n',
     ["l s1 - h e1", "l s2 - h e2"]),
)
NO_EDGE = 'is not an edge such as "leaf1":"swp1" -- "spine1":"swp2"'
NAMED = "the header must name the columns host,port,peer,peer_port"
# plans that are refused, and why
REFUSED = (
    ("#\nhost,port,peer\na,1,b\n", f"line 2: the column peer_port is missing: {NAMED}"),
    ("a,1,b,2\n", "line 1: the column host is missing"), ("", "line 1: the column host is missing"),
    ("host,port,port,peer,peer_port\n", "line 1: the column port occurs more than once"),
    (HEAD + "a,1,b\n", "line 2: its peer_port is missing"),
    (HEAD + "# x\na,1, ,2\n", "line 3: its peer is missing"),
    (HEAD + "a,1,b,2,3\n", "line 2: it has 5 fields for 4 columns"),
    (HEAD + "a,1,b,2\n\nc,3,a,1\n", "line 4: a 1 is already planned in line 2"),
    (HEAD + "a,1,a,1\n", "line 2: a 1 is planned twice"),
    (HEAD, "it has no link to judge"), ("strict graph {}\n", "it has no link to judge"),
    (HEAD + 'a,1,b,"2\nc,3,d,4\n', "line 2: a quoted field has no closing quote"),
    (HEAD + 'a,1,b,"2"3\nc,3,d,4\n', "line 2: ',' expected after '\"'"),
    ('"host"x,port,peer,peer_port\n', "line 1: ',' expected after '\"'"),
    (HEAD + f"a,1,b,{'x' * 131_073}\n", "line 2: a field has over 131072 characters"),
    (HEAD + f"a,1,b,{'x' * 256}\n", "line 2: a name in it has 256 characters, but LLDP can send"),
    ("graph G {\na:1 -- b:2\n/*\n--*/ c:3 -- a:1\n}\n", "line 4: a 1 is already planned in line 2"),
    ('graph G {\na:1 -- b:2 -- c:3\n}\n', f"line 2: '-- c:3' {NO_EDGE}"),
    ('graph {\n"x--y":1 -- z:1\n\n"leaf1" -- "s":"1"\n}', f"line 4: '\"leaf1\" -- \"s\":\"1\"' "),
    ("graph {\nsubgraph x { a:1 -- b:2 }\n}", f"line 2: 'subgraph x {{ a:1 -- b:2 }}' {NO_EDGE}"),
    ("graph {\na:1:ne -- b:2 }", f"line 2: 'a:1:ne -- b:2 }}' {NO_EDGE}"),
    ("graph {\nleaf-1:3 -- c:4 }", "line 2: 'leaf-1:3 -- c:4 }'"),
    ("graph {\n10.0.0.1:3 -- c:4 }", "line 2: '10.0.0.1:3 -- c:4 }'"),
    ("graph {\na:1 -- b:2\n", "line 3: it ends without }"),
    ("graph {\na:1 -- b:2\n}}", f"line 3: '}}' {NO_EDGE}"), ("graph {\n/* }", "line 2: '/* }'"),
    ('graph {\nlabel="\n\n}', "line 2: 'label=\"' is not"),
    ("{", "it cannot be read as JSON"), ("[1]", "answer of NetBox's"),
    ('{"results": [{"id": 7}]}', "no link"), ('{"next": "x", "results": []}', "last page names a"),
)


class Plans(InAFolder):
    def setUp(self) -> None:
        super().setUp()
        self.names = Names()

    def read(self, text: str, columns: Optional[Mapping[str, str]] = None,
             panels: Optional[str] = None, encoding: str = "utf-8") -> Plan:
        """Reads a plan from a text, with the panels of another text if there is one."""
        plan = self.file("plan", text.encode(encoding))
        of_panels = None if panels is None else self.file("panels", panels)
        return read_plan(plan, self.names, columns, of_panels)

    def links(self, plan: Plan) -> List[str]:
        """Returns a plan's links, each once, as `a 1 - b 2`."""
        return [f"{one.end} - {one.expected}" for one in list(plan.ends.values())[::2]]

    def notes(self, plan: Plan) -> List[str]:
        """Returns a plan's notes, without the name of the folder."""
        return [note.replace(f"{self.folder}/", "") for note in plan.notes]

    def fault(self, text: str, panels: Optional[str] = None, encoding: str = "utf-8") -> str:
        """Returns the fault of a wrong plan, without the name of the plan's file."""
        with self.assertRaises(PlanFault) as raised:
            self.read(text, None, panels, encoding)
        return str(raised.exception).replace(f"{self.folder}/plan: ", "")


class Texts(Plans):
    def test_what_is_read(self) -> None:
        for text, links in READ:
            for encoding in ("utf-8", "utf-8-sig"):
                self.assertEqual(self.links(self.read(text, encoding=encoding)), links, text)

    def test_what_is_refused(self) -> None:
        for text, said in REFUSED:
            self.assertIn(said, self.fault(text), text)
        self.assertEqual(self.fault("host,\xe4\n", encoding="latin-1"),
                         "it is not text in UTF-8 (octet 5)")

    def test_all_faults_are_told_at_once(self) -> None:
        rows = [f"a,{row},b,{row}" for row in range(30)]
        told = self.fault("\n".join([HEAD[:-1], *rows, *["a,0,c,1", "a,1,b"] * 11, ""])).split("\n")
        self.assertEqual(len(told), 21)
        self.assertEqual(told[0], "line 32: a 0 is already planned in line 2")
        self.assertEqual(told[19:], ["line 51: its peer_port is missing", "2 more faults"])

    def test_names_that_are_the_same(self) -> None:
        text = HEAD + "a.x,p,b,1\nA.x,P,c,1\n"
        self.assertEqual(len(self.links(self.read(text))), 2)
        self.names = Names(True, True)
        self.assertEqual(self.fault(text), "line 3: A.x P is already planned in line 2")
        self.names = Names(True, True)
        self.assertEqual(self.fault(HEAD + "a.x,p,b,1\na,q,c,1\n"), "line 3: a would be one "
                         "host with a.x in line 2 with --short-names")

    def test_named_columns(self) -> None:
        text = "From;Interface;To Device;To Interface;host\nleaf1;swp1;host01;eth0;x\n"
        given = columns("host=from,port=Interface,peer=to device,peer_port=To Interface")
        self.assertEqual(self.links(self.read(text, given)), ["leaf1 swp1 - host01 eth0"])
        with self.assertRaisesRegex(PlanFault, "line 1: the column none is missing"):
            self.read(text, columns("host=from,port=none"))
        for bad in ("host", "host=", "hosts=a", "host=a,host=b", ""):
            self.assertRaises(ArgumentTypeError, columns, bad)


class NetBox(Plans):
    """Tests NetBox's cables. Cables that cannot be judged are left out and reported once."""

    def test_what_is_left_out(self) -> None:
        plan = self.read(NETBOX)
        self.assertEqual(self.notes(plan), [
            "plan: 5 cables are left out: 2 for power or consoles, 2 with an end that is not a "
            "port of a device, 1 with the status planned or decommissioning",
            "plan: 1 cable ends at patch panels and cannot be judged: give --panels with NetBox's "
            "export of front ports"])
        self.assertEqual(([one.line for one in plan.ends.values()], plan.not_judged), ([2, 2], 1))

    def test_names_where_there_are_no_types(self) -> None:
        rows = "".join(f"{name},leaf1,pdu1,{other}\n" for name, other in (
            ("PSU1", "Outlet 3"), ("Power Supply 2", "A2"), ("PEM 0", "x"), ("eth9", "con 0"),
            ("x", "Console Port 1"), ("USB Console", "ttyS1")))
        plan = self.read("Termination A,Device A,Device B,Termination B\nswp1,leaf1,host01,eth0\n"
                         f"{rows}pwr-sw1,a,b,contrail0\n")
        self.assertEqual(self.links(plan), ["leaf1 swp1 - host01 eth0", "a pwr-sw1 - b contrail0"])
        self.assertEqual(self.notes(plan), ["plan: 6 cables are left out: 6 for power or consoles"])

    def test_the_answer_of_the_api(self) -> None:
        cables = [cable_between(1, [("a", "1")], [("b", "1")]),
                  cable_between(2, [("a", "2"), ("a", "3")], [("b", "2"), ("b", "3")]),
                  cable_between(3, [("pdu", "O1")], [("a", "PSU1")], kind="powerport"),
                  cable_between(4, [("a", "4")], []),
                  cable_between(5, [("a", "5")], [("", "5")]),
                  cable_between(6, [("a", "6")], [("b", "6")], status="planned"),
                  cable_between(7, [("a", "7")] * 2, [("b", "7")] * 3), None,
                  {"a_terminations": 5, "b_terminations": "x"}, {"a_terminations": [5]}]
        pages = [{"next": "x", "results": cables[:2]}, {"next": None, "results": cables[2:]}]
        for text in (json.dumps(pages), json.dumps({"results": cables})):
            plan = self.read(text)
            self.assertEqual(self.links(plan), ["a 1 - b 1", "a 2 - b 2", "a 3 - b 3"])
            self.assertEqual(self.notes(plan), [
                "plan: 7 cables are left out: 5 with an end that is not a port of a device, 1 for "
                "power or consoles, 1 with the status planned or decommissioning",
                "plan: 1 cable cannot be judged, since the ends cannot be paired; the first ends "
                "are a 7, a 7, b 7"])
        nameless = cable_between(1, [("a", "1")], [("b", "1")])
        nameless["b_terminations"][0]["object"]["device"] = {"name": None, "display": "EX (7)"}
        self.assertEqual(self.links(self.read(json.dumps({"results": [nameless]}))),
                         ['a 1 - "EX (7)" 1'])


class Panels(Plans):
    PLAN = HEAD + ("leaf1,swp1,pp1,F1\npp1,R1,pp2,R1\n# two panels\npp2,F1,host01,eth0\n"
                   "host02,eth0,pp1,F2\npp1,R2,leaf1,swp2\nleaf1,swp3,host03,eth0\n")
    PAIRS = HEAD + "pp1,F1,pp1,R1\npp1,R2,pp1,F2\npp2,F1,pp2,R1\npp1,F9,pp1,R9\n"

    def test_links_go_on(self) -> None:
        plan = self.read(self.PLAN, panels=self.PAIRS)
        self.assertEqual(self.links(plan), ["leaf1 swp1 - host01 eth0", "host02 eth0 - leaf1 swp2",
                                            "leaf1 swp3 - host03 eth0"])
        self.assertEqual((self.notes(plan), plan.not_judged), ([], 0))
        self.assertEqual([(one.line, *map(str, one.detail.path)) for one in plan.ends.values()
                          ][:2], [(2, "pp1 F1", "pp1 R1", "pp2 R1", "pp2 F1"),
                                  (5, "pp2 F1", "pp2 R1", "pp1 R1", "pp1 F1")])
        for pairs in ("panel,front,rear\npp1,F1,R1\npp1,F2,R2\npp2,F1,R1\n",
                      "Device,Name,Rear Port\npp1,F1,R1\npp1,F2,R2\npp2,F1,R1\n",
                      "graph { pp1:F1 -- pp1:R1; pp1:F2 -- pp1:R2; pp2:F1 -- pp2:R1 }"):
            self.assertEqual(len(self.links(self.read(self.PLAN, panels=pairs))), 3)

    def test_faults(self) -> None:
        ring = HEAD + "pp1,R1,pp2,R1\npp2,F1,pp1,F1\n"
        for plan, panels, said in (
                (self.PLAN + "leaf1,swp7,pp1,F1\n", self.PAIRS, "line 9: pp1 F1 is already"),
                (self.PLAN, self.PAIRS + "pp1,F1,pp1,R7\n", "line 6: pp1 F1 is already joined"),
                (self.PLAN, self.PAIRS + "p,R,p,X\np,F,p,R\n", "line 7: p R is also joined to p X"),
                (ring, self.PAIRS, "it has no link to judge"),
                (ring + "leaf1,1,pp1,F1\na,1,b,1\n", self.PAIRS, "pp1 F1 is already planned")):
            self.assertIn(said, self.fault(plan, panels))

    def test_random_chains(self) -> None:
        """Checks that the links that panels divide into chains of cables are found."""
        for panels in range(6):
            rows, pairs, wanted = [], [HEAD[:-1]], []
            for link in range(20):
                at = f"a,{link}"
                for panel in range(panels):
                    front = f"pp{panel},F{link}"
                    rows.append(f"{at},{front}" if link % 2 else f"{front},{at}")
                    pairs.append(f"pp{panel},R{link},pp{panel},F{link}")
                    at = f"pp{panel},R{link}"
                rows.append(f"{at},b,{link}")
                wanted.append({f"a {link}", f"b {link}"})
            plan = self.read("\n".join([HEAD[:-1], *rows[::-1]]),
                             panels="\n".join([*pairs, "x,1,x,2"]))
            self.assertCountEqual([set(text.split(" - ")) for text in self.links(plan)], wanted)
