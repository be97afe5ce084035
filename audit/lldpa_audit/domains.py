"""Finds devices of several domains that --short-names takes for one host."""
from collections import defaultdict
from typing import Iterator, Sequence

from .judging import Finding, Verdict
from .names import Names


def of_several_domains(findings: Sequence[Finding], names: Names) -> Iterator[Finding]:
    """Yields the findings. A right end is `doubled` if the host that it wants is heard in several
    domains."""
    domains: dict[str, set[str]] = defaultdict(set)
    for one in findings:
        if one.verdict is Verdict.RIGHT and one.expected is not None:
            name = names.heeded_hosts(one.has[0])[0]
            domains[names.host(one.expected.host)].add(names.domain(name))
    apart = {host for host, some in domains.items() if len(some - {""}) > 1}
    for one in findings:
        is_doubled = (one.verdict is Verdict.RIGHT and one.expected is not None
                      and names.host(one.expected.host) in apart)
        yield one._replace(verdict=Verdict.DOUBLED) if is_doubled else one
