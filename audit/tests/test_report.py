"""Tests the line of each fault, with what helps to find the cable."""
import unittest
from typing import Sequence, Tuple

from auditing import without_ages
from lldpa_audit.comparing import audit
from lldpa_audit.names import NAMELESS, End, Names, Seen
from lldpa_audit.plan import Detail, Link, Plan
from lldpa_audit.report.report import Report
from lldpa_audit.seen.tables import Tables

SWAPPED = "l1 p1 = s2 q1; l1 p2 = s1 q1; s1 q1 = l1 p2"
TWO = "l1 p1 - s1 q1; l1 p2 - s2 q1"
THREE = "a 1 - b 1; a 2 - b 2; a 3 - b 3"
NEARLY = "(there is a port P1: only the case differs)"
# links, known neighbors, and the lines; neighbor `?` has no name, `b 1!` has another chassis ID
ROWS: Sequence[Tuple[str, str, Sequence[str]]] = (
    ("a swp10 - b 10; a swp9 - b 9; a swp1 - b 1; a swp8 - b 8",
     "a swp10 =; a swp9 =; a swp1 =; a swp8 = b 8",
     ["swp1   silent: wants b 1", "swp9   silent: wants b 9", "swp10  silent: wants b 10",
      "4 cables: 1 right, 3 wrong"]),
    ("h10 1 - b 1; h9 1 - c 2", "h10 1 =; h9 1 =",
     ["h9 1   silent: wants c 2", "h10 1  silent: wants b 1", "2 cables: 0 right, 2 wrong"]),
    ("a 1 - b 1", "a 1 = x y; b 1 = a 1",
     ["a 1  wrong: wants b 1, has x y; b 1 hears it", "1 cable: 0 right, 1 wrong"]),
    # a port with two neighbors is not where the cable was moved to
    ("a 1 - b 1", "a 1 =; a 5 = b 1, x y; b 1 = a 5",
     ["b 1  wrong: wants a 1, has a 5; a 1 hears nobody",
      "1 cable: 0 right, 1 wrong; 1 unplanned port"]),
    (THREE, "a 1 = b 2; a 2 =; a 3 = b 3; a 4 = b 1",
     ["1  wrong: wants b 1 (seen at 4), has b 2 (planned at 2)", "2  silent: wants b 2 (seen at 1)",
      "4  unplanned: has b 1 (planned at 1)", "3 cables: 1 right, 2 wrong; 1 unplanned port"]),
    (THREE, "a 1 = b 2; a 2 = b 3; a 3 = b 1",
     ["1  wrong: wants b 1 (seen at 3), has b 2 (planned at 2)",
      "2  wrong: wants b 2 (seen at 1), has b 3 (planned at 3)",
      "3  wrong: wants b 3 (seen at 2), has b 1 (planned at 1)", "3 cables: 0 right, 3 wrong"]),
    ("a 3 - b 1; a 2 - b 2; a 1 - b 3", "a 3 = b 2|3; a 2 = b 1; a 1 = b 1",
     ["1  swapped with 3: wants b 3, has b 1", "2  swapped with 3: wants b 2, has b 1",
      "3 cables: 0 right, 3 wrong"]),
    ("a 1 - b 1", "a 1 =; b 1 = a 1",
     ["b 1  one-sided: hears a 1, is not heard there", "1 cable: 0 right, 1 wrong"]),
    ("a 1 - b 1", "a 1 =; b 1 = a 1, x y",
     ["b 1  extra: x y besides a 1; a 1 hears nobody", "1 cable: 0 right, 1 wrong"]),
    ("a 1 - b 1", "a 1 =; b 1 =",
     ["a 1  silent: wants b 1 (which is silent, too)", "1 cable: 0 right, 1 wrong"]),
    ("a 1 - b 1; a 2 - b 2", "a 1 = b 1, b 1!; a 2 = b 2, x 0, x 1, x 2, x 3, x 4, ?",
     ["1  doubled: wants b 1, has b 1 (chassis c, port 1) and b 1 (chassis c!, port 1)",
      "2  extra: x 0, x 1, x 2 and 3 more besides b 2", "2 cables: 0 right, 2 wrong"]),
    ("a 1 - b 1", "a 1 = b 1, ?",
     ["1  extra: a neighbor that did not fit in the table besides b 1",
      "1 cable: 0 right, 1 wrong"]),
    *[("a 1 - b.x 1", f"a 1 = {host} 1",
       [f"1  wrong: wants b.x 1, has {host} 1 (only {differs})", "1 cable: 0 right, 1 wrong"])
      for host, differs in (("B.x", "the case differs"), ("b", "the domain differs"),
                            ("B.y", "case and domain differ"))],
    ("a p1 - b 1", "a P1 = b 1",
     ["P1  unplanned: has b 1 (planned at p1)", f"p1  no data: wants b 1 (seen at P1) {NEARLY}",
      "1 cable: 0 right, 0 wrong, 1 not looked at (b); 1 unplanned port"]),
    ("a p1 - b 1", "a p1 =; a P1 = b 1",
     ["P1  unplanned: has b 1 (planned at p1)", f"p1  silent: wants b 1 (seen at P1) {NEARLY}",
      "1 cable: 0 right, 1 wrong; 1 unplanned port"]),
    (TWO, f"{SWAPPED}; s2 q1 = l1 p1",
     ["l1 p1  swapped with l1 p2: wants s1 q1, has s2 q1 (or exchange s1 q1 with s2 q1 instead)",
      "2 cables: 0 right, 2 wrong"]),
    (TWO, SWAPPED, ["l1 p1  swapped with l1 p2: wants s1 q1, has s2 q1",
                    "2 cables: 0 right, 2 wrong"]),
    (TWO, f"{SWAPPED}; s2 q1 = l1 p1".replace("s1 q1 = l1 p2", "s1 q1 = x y"),
     ["l1 p1  swapped with l1 p2: wants s1 q1, has s2 q1",
      "s1 q1  wrong: wants l1 p1 (seen at s2 q1), has x y", "2 cables: 0 right, 2 wrong"]),
    ("a 1 - z 1; b 1 - z 2", "a 1 = z 2; b 1 = z 1; z 1 = b 1; z 2 = a 1",
     ["z 1  swapped with z 2: wants a 1, has b 1 (or exchange a 1 with b 1 instead)",
      "2 cables: 0 right, 2 wrong"]),
    # ports of a stack are not lanes of one port
    ("sw Gi1/0/1 - a 1; sw Gi1/0/2 - b 1; sw Gi1/0/3 - c 1",
     "sw Gi1/0/1 = b 1; sw Gi1/0/2 = c 1; sw Gi1/0/3 = a 1",
     ["Gi1/0/1  wrong: wants a 1 (seen at Gi1/0/3), has b 1 (planned at Gi1/0/2)",
      "Gi1/0/2  wrong: wants b 1 (seen at Gi1/0/1), has c 1 (planned at Gi1/0/3)",
      "Gi1/0/3  wrong: wants c 1 (seen at Gi1/0/2), has a 1 (planned at Gi1/0/1)",
      "3 cables: 0 right, 3 wrong"]),
    ("sw Et1/1/1 - a 1; sw Et1/1/2 - b 1; sw Et1/1/3 - c 1",
     "sw Et1/1/1 = b 1; sw Et1/1/2 = c 1; sw Et1/1/3 = a 1",
     ["Et1/1/1 to Et1/1/3  turned: the lanes of one port are in the wrong order",
      "3 cables: 0 right, 3 wrong"]),
    ("sw Et1/1/1 - a 1; sw Et1/1/2 - b 1; sw Et1/1/3 - c 1",
     "sw Et1/1/1 = d 1; sw Et1/1/2 = e 1; sw Et1/1/3 = f 1",
     ["Et1/1/1  wrong: wants a 1, has d 1", "Et1/1/2  wrong: wants b 1, has e 1",
      "Et1/1/3  wrong: wants c 1, has f 1", "3 cables: 0 right, 3 wrong"]),
)


def end(text: str) -> End:
    return End(*text.split())


def seen(text: str) -> Seen:
    """Returns a neighbor with the host and port that a text names; bars separate several ports."""
    if text == "?":
        return NAMELESS
    host, port = text.rstrip("!").split()
    return Seen((host,), tuple(port.split("|")), "c!" if text.endswith("!") else "c", port)


def report_of(links: str, known: str) -> Report:
    """Returns the report of an audit of these links with these known neighbors."""
    pairs = [text.split(" - ") for text in links.split("; ")]
    plan = Plan("plan", [Link(end(one), end(other), None) for one, other in pairs],
                Names())
    tables = Tables(plan.names)
    for text in known.split("; "):
        at, _, neighbors = text.partition(" =")
        host, port = end(at)
        heard = [seen(one.strip()) for one in neighbors.split(",") if one.strip()]
        tables.add_ports(host, {port: heard})
    return Report(plan, tables, audit(plan, tables))


class Lines(unittest.TestCase):
    def test_lines(self) -> None:
        for links, known, lines in ROWS:
            found = report_of(links, known).lines()
            self.assertEqual([*found[:-1], without_ages(found[-1])], lines)

    def test_empty_columns(self) -> None:
        """Checks that a line shows the further columns of its cable, but not empty or long ones,
        and the panels on its way."""
        way = (End("pp1", "F1"), End("pp1", "R1"))
        for texts, path, shown in (
                (("C1", "", "r2"), (), " [label C1, rack r2]"), (("", "", ""), (), ""),
                (("C1", "x" * 41, "r2"), (), " [label C1, rack r2]"),
                (("C1", "", ""), way, " [label C1, through pp1 F1, pp1 R1]")):
            link = Link(End("a", "1"), End("b", "1"), None, detail=Detail(texts, path))
            plan = Plan("plan", [link], Names())
            plan.columns = ["label", "color", "rack"]
            tables = Tables(plan.names)
            tables.add_ports("a", {"1": []})
            lines = Report(plan, tables, audit(plan, tables)).lines()
            self.assertEqual(lines[0], f"1  silent: wants b 1{shown}")
