"""Compares the verdicts on random breakout cables with those of a slow judge.

LLDPA_SEED is the first seed, and LLDPA_BREAKOUTS the number of switches.
To try more of them by hand, run audit/tools/try-random.py.
"""
import json
import os
import unittest
from collections import Counter
from typing import Dict, List, Tuple

from auditing import InAFolder
from lldpa_audit.breakouts import join_lanes
from lldpa_audit.comparing import audit
from lldpa_audit.judging import Finding, Verdict
from lldpa_audit.lanes import SCHEMES, canonical, compiled, schemes_of
from lldpa_audit.names import End, Names
from lldpa_audit.planfile import read_plan
from lldpa_audit.report.report import Report
from lldpa_audit.seen.forms import read_list
from lldpa_audit.seen.tables import Tables
from random_breakouts import Breakouts

SEED = int(os.environ.get("LLDPA_SEED", "1"))
SWITCHES = int(os.environ.get("LLDPA_BREAKOUTS", "1000"))
FINE = (Verdict.RIGHT, Verdict.NOT_LOOKED_AT)


class RandomBreakouts(InAFolder):
    def audited(self, case: Breakouts) -> Tuple[Report, List[Finding]]:
        """Audits a switch and its neighbors. Reports too, since a report must not fail either."""
        names = Names(case.is_loose, case.dice.random() < 0.3, case.is_loose)
        plan = read_plan(self.file("plan", case.csv()), names)
        tables = Tables(plan.names)
        for host, ports in case.seen().items():
            tree = {port: [{"hostname": name, "port": its} for name, its in heard]
                    for port, heard in ports.items()}
            listing = read_list(json.dumps(tree).encode())
            self.assertEqual(tables.add_ports(host, listing.ports, host, True), "")
        join_lanes(plan, tables)
        findings = audit(plan, tables)
        return Report(plan, tables, findings), findings

    def states(self, findings: List[Finding]) -> Dict[End, str]:
        """Returns the state of each judged link by its far end, as the audit judges its ends."""
        found: Dict[End, str] = {}
        for one in findings:
            if one.expected is not None:
                far = one.expected if one.end.host == "sw" else one.end
                state = one.verdict.value if one.verdict in FINE else "wrong"
                found[far] = state if found.get(far) in (None, state, "right") else "wrong"
        return found

    def test_each_link(self) -> None:
        """Checks each state. A link may be not judged if its lanes' names may be other ports'."""
        counts: Counter[str] = Counter()
        vendors: "Dict[str, Counter[str]]" = {}
        for seed in range(SEED, SEED + SWITCHES):
            with self.subTest(seed=seed):
                case = Breakouts(seed)
                report, findings = self.audited(case)
                wanted = {far: case.state(port, far)
                          for port, ends in case.plan.items() for far in ends}
                found = self.states(findings)
                left = {far for far in wanted if far not in found}
                self.assertTrue(not left or case.is_unclear, (case.scheme.vendor, left))
                self.assertEqual(found, {far: state for far, state in wanted.items()
                                         if far not in left}, case.scheme.vendor)
                self.assertEqual(report.count.cables["right"], list(found.values()).count("right"))
                self.assertEqual(report.count.cables["not judged"], len(left))
                self.assertTrue(report.lines())
                self.need_nothing_besides(findings, wanted)
                states = Counter(found.get(far, "not judged") for far in wanted)
                vendors.setdefault(case.scheme.vendor, Counter()).update(states)
                counts += states
        for state in ("right", "wrong", "not looked at", "not judged"):
            self.assertGreater(counts[state], SWITCHES // 10, counts)
        for scheme in SCHEMES if SWITCHES >= 1000 else ():
            self.assertGreater(vendors[scheme.vendor]["right"], SWITCHES // 100, vendors)

    def need_nothing_besides(self, findings: List[Finding], wanted: Dict[End, str]) -> None:
        """Checks that the cable of a right link, or of one not judged, is at no unplanned port."""
        unplanned = {End(near.hosts[0], near.ports[0]) for one in findings
                     if one.verdict is Verdict.UNPLANNED for near in one.has}
        self.assertEqual([far for far in unplanned if wanted.get(far) == "right"], [])


class Table(unittest.TestCase):
    """Tests the table of lanes with names as the vendors' documents write them, since the random
    switches have their names from the table itself."""

    # a port, its first lane, and a name that is of no lane of it
    PORTS = (
        ("Cumulus Linux", "swp49", "swp49s0, swp49s3", "swp49s8"),
        ("Junos", "et-0/0/48", "xe-0/0/48:0, et-0/0/48:3, ge-0/0/48:0", "xe-0/0/48:8"),
        ("Junos", "xe-0/0/1", "xe-0/0/1:0", "xe-0/0/2:0"),
        ("NX-OS, SONiC's standard names", "Ethernet1/49", "Ethernet1/49/1", "Ethernet1/49/0"),
        ("EOS", "Ethernet49/1", "Ethernet49/1, Ethernet49/4", "Ethernet49/0"),
        ("EOS of modular switches", "Ethernet3/1/1",
         "Ethernet3/1/1, Ethernet3/1/4", "Ethernet3/2/1"),
        ("OS10", "ethernet1/1/25", "ethernet1/1/25:1", "ethernet1/1/25:0"),
        ("OS9", "fortyGigE 1/49", "TenGigabitEthernet 1/49/1", "TenGigabitEthernet 1/49/0"),
        ("OS9", "hundredGigE 1/5", "twentyFiveGigE 1/5/1, fiftyGigE 1/5/2", "fiftyGigE 1/5/0"),
        ("OS9 of older switches", "fortyGigE 0/48",
         "TenGigabitEthernet 0/48, TenGigabitEthernet 0/51", "TenGigabitEthernet 0/47"),
        ("IOS-XR", "HundredGigE0/0/0/1",
         "TenGigE0/0/0/1/0, TwentyFiveGigE0/0/0/1/3", "TenGigE0/0/0/1/8"),
        ("IOS-XR", "FortyGigE0/0/0/1", "TenGigE0/0/0/1/0", "TenGigE0/0/0/2/0"),
        ("IOS-XR", "FourHundredGigE0/0/0/1",
         "FiftyGigE0/0/0/1/0, HundredGigE0/0/0/1/3", "HundredGigE0/0/0/1/8"),
        ("IOS-XE", "FortyGigabitEthernet1/0/25",
         "TenGigabitEthernet1/0/25/1", "TenGigabitEthernet1/0/25/0"),
        ("IOS-XE", "HundredGigE1/0/25", "TwentyFiveGigE1/0/25/1", "TwentyFiveGigE1/0/25/0"),
        ("Huawei", "40GE1/0/1", "10GE1/0/1:1", "10GE1/0/1:0"),
        ("Huawei", "100GE1/0/1", "25GE1/0/1:1, 50GE1/0/1:2", "25GE1/0/1:0"),
        ("Huawei", "400GE1/0/1", "100GE1/0/1:1, 50GE1/0/1:8", "100GE1/0/1:0"),
        ("H3C", "FortyGigE1/0/49", "Ten-GigabitEthernet1/0/49:1", "Ten-GigabitEthernet1/0/49:0"),
        ("H3C", "HundredGigE1/0/49", "Twenty-FiveGigE1/0/49:1", "Twenty-FiveGigE1/0/49:0"),
        ("AOS-CX", "1/1/49", "1/1/49:1", "1/1/49:0"),
        ("SR Linux", "ethernet-1/49", "ethernet-1/49/1", "ethernet-1/49/0"),
        ("SR OS", "1/1/c1", "1/1/c1/1", "1/1/c1/0"),
        ("SONiC", "Ethernet0", "Ethernet0, Ethernet3", "Ethernet8"),
        ("EXOS", "53", "53, 56", "52"),
        ("EXOS of stacked switches", "1:53", "1:53, 1:56", "1:52"))
    # a port, others of its switch, and the vendors whose lanes it may have
    TOLD_APART = (
        ("Ethernet1/1", (), {"NX-OS, SONiC's standard names", "EOS"}),
        *(("Ethernet1/1", (other,), {"NX-OS, SONiC's standard names"})
          for other in ("Ethernet1/48", "Ethernet1/9", "Ethernet1/5/1")),
        *(("Ethernet1/1", (other,), {"EOS"}) for other in ("Ethernet48", "Ethernet25/1")),
        *(("Ethernet3/1/1", (other,), set()) for other in ("Ethernet3/1/9", "Ethernet3/1")),
        ("ethernet1/1/1", ("ethernet1/2/1",), {"EOS of modular switches"}),
        ("ethernet1/1/1", ("ethernet1/1/25:1",), {"OS10"}),
        ("fortyGigE 0/48", (), {"OS9 of older switches"}), ("fortyGigE 1/48", (), {"OS9"}),
        ("fortyGigE 0/48", ("TenGigabitEthernet 1/1",), set()),
        ("fortyGigE 1/48", ("TenGigabitEthernet 0/1",), set()))

    def test_names_of_lanes(self) -> None:
        for vendor, port, lanes, other in self.PORTS:
            with self.subTest(port=port):
                found = {scheme.vendor: {*scheme.lanes_of(number, 8)}
                         for scheme, number in schemes_of(canonical(port), ())}
                self.assertEqual({*map(canonical, lanes.split(", "))} - found[vendor], set())
                self.assertNotIn(canonical(other), found[vendor])

    def test_each_form_has_a_name(self) -> None:
        for scheme in SCHEMES:
            rows = [row for row in self.PORTS if row[0] == scheme.vendor]
            ports = {row[1] for row in rows}
            lanes = {lane for row in rows for lane in row[2].split(", ")}
            for forms, names in ((scheme.ports, ports), (scheme.lanes, lanes)):
                for one in compiled(forms, scheme.number):
                    self.assertTrue(any(map(one.fullmatch, map(canonical, names))), one)

    def test_vendors_told_apart(self) -> None:
        for port, others, vendors in self.TOLD_APART:
            found = {scheme.vendor for scheme, _ in
                     schemes_of(canonical(port), {canonical(port), *map(canonical, others)})}
            self.assertEqual(found, vendors, (port, others))
