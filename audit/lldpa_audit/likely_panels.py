"""Finds devices that may be patch panels, for plans that do not say which devices are panels."""
from typing import Iterable, Sequence

from .judging import Finding, Verdict
from .names import first_of
from .plan import Plan
from .seen.tables import Tables


def advice_on_panels(plan: Plan, tables: Tables, findings: Iterable[Finding]) -> Sequence[str]:
    """Returns a note on the hosts that may be panels, if there are any. A cable that bypasses a
    firewall looks the same, so all its ends have their verdicts."""
    if not plan.is_untyped:
        return ()
    wrong = [one for one in findings if one.verdict is Verdict.WRONG]  # nobody swaps unheard ends
    panels = likely_panels(plan, tables, wrong) if wrong else ()
    some = first_of([plan.hosts[host] for host in panels])
    names = f"{some[0]} is a panel" if len(some) == 1 else f"{', '.join(some)} are panels"
    return [f"{plan.file}: if {names}, give --panels with NetBox's export of front ports"
            ] if some else ()


def likely_panels(plan: Plan, tables: Tables, wrong: Sequence[Finding]) -> Sequence[str]:
    """Returns the hosts that nobody hears, and two of whose neighbors in the plan hear each other
    instead. One of these may be at another such host that cables join to the first."""
    names, ends = tables.names, plan.ends
    left = plan.hosts.keys() - tables.hosts.keys() - {
        host for known in tables.ends.values() for one in known.neighbors
        for host in names.hosts_of(one)}
    found: set[str] = set()
    for one in wrong:
        joined, further = set[str](), [ends[names.end(one.end)].peer.host]
        while further:
            host = further.pop()
            if host in left and host not in joined:
                joined.add(host)
                further += [ends[key].peer.host for key in plan.ends_of_hosts[host]]
        if any(end in ends and ends[end].peer.host in joined for end in names.ends(one.has[0])):
            found |= joined
            left -= joined
    return sorted(found)
