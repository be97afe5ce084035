"""Compares the verdicts on random plans with those of a slow judge."""
import os
import random
import sys
import unittest
from typing import List, Sequence

from lldpa_audit.comparing import audit
from lldpa_audit.judging import HEARD, Finding, Verdict
from lldpa_audit.names import NAMELESS, End, Names, Seen
from lldpa_audit.plan import Link, Plan, PlanFault
from lldpa_audit.seen.tables import Tables

from slow_judge import SlowJudge

# how many random plans are judged; set LLDPA_RANDOM_PLANS=10000 for a longer run
RANDOM_PLANS = int(os.environ.get("LLDPA_RANDOM_PLANS", "1000"))

HOSTS = ["a", "A", "b", "a.x", "a.y", "b.x", "B.X", "10.0.0.1", "10.0.0.2", "10"]
PORTS = ["1", "2", "p", "P", "Et1", "Ethernet1", "bond0"]


class Case:
    """Random links, audited hosts and known ports."""

    def __init__(self, seed: int) -> None:
        self.rng = rng = random.Random(seed)
        self.rules = [rng.random() < 0.3 for _ in range(3)]
        self.names = Names(*self.rules)
        hosts = rng.sample(HOSTS, rng.randint(2, len(HOSTS)))
        self.hosts = list({self.names.host(host): host for host in hosts}.values())
        ports = rng.sample(PORTS, rng.randint(2, 4))
        self.ports = list({self.names.plain_port(port): port for port in ports}.values())
        ends = [End(host, port) for host in self.hosts for port in self.ports]
        rng.shuffle(ends)
        size = rng.randint(2, max(2, len(ends))) // 2 * 2
        self.pairs = list(zip(ends[:size:2], ends[1:size:2]))
        self.audited = rng.sample(self.hosts, rng.randint(1, len(self.hosts)))
        self.known = {End(host, port): self.neighbors(End(host, port)) for host in self.audited
                      for port in self.ports if rng.random() < 0.85}
        for _ in range(rng.randint(0, 3) if len(self.known) > 1 else 0):
            one, other = rng.sample(sorted(self.known), 2)
            self.known[one], self.known[other] = self.known[other], self.known[one]

    def neighbors(self, end: End) -> List[Seen]:
        wanted = [pair[1 - pair.index(end)] for pair in self.pairs if end in pair]
        neighbors = [self.somebody(one) for one in wanted if self.rng.random() < 0.8]
        while self.rng.random() < 0.2:
            neighbors.append(self.random_neighbor())
        self.rng.shuffle(neighbors)
        return neighbors

    def somebody(self, end: End) -> Seen:
        """Returns a neighbor that matches an end, or nearly does, or also matches another end."""
        if self.rng.random() < 0.2:
            return Seen((self.like(end.host, HOSTS),), (self.like(end.port, PORTS),))
        if self.rng.random() < 0.2:
            other = self.rng.choice(self.rng.choice(self.pairs))
            return self.with_port_id(Seen((end.host, other.host), (end.port, other.port)))
        if self.rng.random() < 0.1:
            return Seen((end.host,), ("bond0",), port_id="bond0",
                        aggregated=self.rng.random() < 0.8)
        return Seen((end.host,), (end.port,), port_id=end.port)

    def like(self, name: str, names: Sequence[str]) -> str:
        """Returns one of the names with the same first letter in either case, or else `name`."""
        alike = [one for one in names if one[0].lower() == name[0].lower()]
        return self.rng.choice(alike or [name])

    def random_neighbor(self) -> Seen:
        if self.rng.random() < 0.1:
            return NAMELESS
        return self.with_port_id(Seen(tuple(self.rng.choices(HOSTS, k=self.rng.randint(1, 3))),
                                      tuple(self.rng.choices(PORTS, k=self.rng.randint(1, 2))),
                                      aggregated=self.rng.random() < 0.5))

    def with_port_id(self, seen: Seen) -> Seen:
        """Sets `is_named` at random. If set, the Port ID is the first port, else the last one."""
        is_named, chassis = self.rng.random() < 0.5, self.rng.choice(seen.hosts)
        return seen._replace(port_id=seen.ports[0 if is_named else -1], is_named=is_named,
                             chassis=chassis if self.rng.random() < 0.5 else "")

    def findings(self) -> Sequence[Finding]:
        plan = Plan("plan", [Link(one, other, None) for one, other in self.pairs], self.names)
        tables = Tables(plan.names)
        for host in self.audited:
            tables.add_ports(host, {end.port: some for end, some in self.known.items()
                                    if end.host == host})
        return audit(plan, tables)


class RandomPlans(unittest.TestCase):
    """Checks that the audit and the slow judge agree on random plans and tables."""

    def test_random_plans(self) -> None:
        verdicts = dict.fromkeys(set(Verdict) - {Verdict.KNOWN}, 0)
        judged = seed = 0
        while judged < RANDOM_PLANS:
            seed += 1
            case = Case(seed)
            try:
                findings = case.findings()
            except (PlanFault, ValueError):
                continue
            judged += 1
            with self.subTest(seed=seed):
                self.compare(SlowJudge(case.pairs, case.audited, case.known, case.rules), findings)
            for finding in findings:
                verdicts[finding.verdict] += 1
        for verdict, times in verdicts.items():
            self.assertGreater(times, RANDOM_PLANS // 100, verdict)

    def compare(self, judge: SlowJudge, findings: Sequence[Finding]) -> None:
        verdicts = {end: judge.verdicts(end) for end in judge.wants}
        planned = [end for end in judge.wants if judge.is_one_of(judge.audited, end.host)
                   or verdicts[end] == ["not looked at"]]
        found = [one for one in findings if one.verdict is not Verdict.UNPLANNED]
        self.assertEqual([one.end for one in found], planned)
        for end, finding in zip(planned, found):
            self.assertEqual([finding.verdict.value], verdicts[end], end)
            self.assertEqual(finding.expected, judge.wants[end])
            self.assertEqual(len(finding.has), len(judge.neighbors(end) or []))
            self.assertEqual(finding.by, judge.by(end) if finding.verdict in HEARD else "")
            if finding.verdict is Verdict.SWAPPED:
                self.assertEqual(finding.partner, judge.partners(end)[0])
            self.assertEqual(finding.moved_to, judge.moved_to(end) or (
                judge.moved_to(finding.expected) if finding.verdict is Verdict.MOVED else None))
        beside = [one.end for one in findings if one.verdict is Verdict.UNPLANNED]
        moved = {one.moved_to for one in findings}
        self.assertEqual(sorted(beside), sorted(set(judge.unplanned()) - moved))


class Aggregates(unittest.TestCase):
    """Checks that judging twice as many links of aggregates takes at most 2.2 times the steps."""

    def steps(self, links: int, peer: str) -> int:
        """Returns how many trace events an audit takes if host a hears `peer` at each port."""
        count = 0
        plan = Plan("p", [Link(End(one, f"eth{at}"), End(other, f"eth{at}"), None)
                          for one, other in (("a", "b"), ("c", "d")) for at in range(links)],
                    Names(vendor_names=True))
        tables = Tables(plan.names)
        for host, other in (("a", peer), ("b", "a"), ("c", "x"), ("d", "x")):
            tables.add_ports(host, {
                f"eth{at}": [Seen((other,), ("bond0",), aggregated=True)] for at in range(links)})

        def step(*_: object) -> object:
            nonlocal count
            count += 1
            return step
        sys.settrace(step)  # type: ignore[arg-type]
        try:
            audit(plan, tables)
        finally:
            sys.settrace(None)
        return count

    def test_a_partner_besides_the_wanted_end(self) -> None:
        """Checks which end a port is swapped with that hears an aggregate of its own host, as does
        the end that it wants."""
        plan = Plan("p", [Link(End("a", f"eth{at}"), End("b", f"eth{at}"), None)
                          for at in range(3)], Names(vendor_names=True))
        tables = Tables(plan.names)
        for host, ports in (("a", 1), ("b", 3)):
            tables.add_ports(host, {f"eth{at}": [Seen((host,), ("bond0",), aggregated=True)]
                                    for at in range(ports)})
        partners = [one.partner for one in audit(plan, tables) if one.end == End("a", "eth0")]
        self.assertEqual(partners, [End("b", "eth1")])

    def test_cost(self) -> None:
        for peer in ("b", "d"):
            self.assertLess(self.steps(200, peer), 2.2 * self.steps(100, peer), peer)
