"""Compares what is seen at the ports of hosts with a plan."""
from .domains import of_several_domains
from .judging import Finding, Judge, Verdict
from .moves import with_moves
from .plan import Plan
from .seen.tables import Tables


def audit(plan: Plan, tables: Tables, planned_only: bool = False) -> list[Finding]:
    """Returns findings on planned ends of audited hosts and on ends of links that nobody looked at,
    in the plan's order. Unplanned ports with a neighbor follow, unless `planned_only`."""
    judge = Judge(plan, tables)
    findings = list(judge.planned())
    if judge.names.short_names:
        findings = list(of_several_domains(findings, judge.names))
    findings = with_moves(findings, list(judge.unplanned()), judge.names)
    if not planned_only:
        return findings
    return [one for one in findings if one.verdict is not Verdict.UNPLANNED]
