"""Writes a report as one HTML page, which needs no other file and runs no script."""
import html
import re
from collections import Counter
from typing import Iterator, Sequence

from lldpa.texts import printable

from ..judging import Finding
from ..names import End, shown
from .repairs import TO_DO
from .report import Report
from .style import STYLE

# browsers become slow with more rows
MOST_ROWS = 10_000
WORD = re.compile(r"[^\s<>&;]+")


def page_of(report: Report) -> Iterator[str]:
    """Yields the page: count, repairs, faults by kind and host, a section per host with faults."""
    hosts: dict[str, list[Finding]] = {}
    for fault in report.reported[:MOST_ROWS]:
        hosts.setdefault(report.names.host(fault.end.host), []).append(fault)
    file = text(report.plan.file)
    yield ('<!DOCTYPE html>\n<html lang="en">\n<head>\n<meta charset="utf-8">\n'
           '<meta name="viewport" content="width=device-width, initial-scale=1">\n'
           f"<title>Cabling by {file}</title>\n<style>{STYLE}</style>\n</head>\n<body>\n"
           f"<h1>Cabling by {file}</h1>\n<p class=count>{text(str(report.count))}</p>\n")
    yield from repairs(report)
    yield '<div class="tables">\n'
    yield from by_kind(report)
    yield from by_host(list(hosts.values()))
    yield "</div>\n"
    yield from not_looked_at(report.count.hosts)
    for number, faults in enumerate(hosts.values()):
        yield from host(report, number, faults)
    yield "</body>\n</html>\n"


def repairs(report: Report) -> Iterator[str]:
    """Yields the repairs: what to do, where, and how many links each mends."""
    if not report.repairs:
        return
    yield ("<table class=repairs><caption>Repairs</caption><tr><th>No.<th>Where"
           "<th>What is wrong<th>What to do<th>In the plan<th>Links</tr>\n")
    for number, repair in enumerate(report.repairs[:MOST_ROWS], 1):
        yield (f'<tr id="r{number}"><td class=number>{number}'
               f"<td><b>{text(report.place(repair))}</b><td>{text(repair.text)}"
               f"<td>{TO_DO[repair.kind]}<td>{planned(report, repair.end)}"
               f"<td class=number>{report.links_of(repair)}</tr>\n")
    yield "</table>\n"
    if len(report.reported) > MOST_ROWS:
        yield (f"<p>This page has at most {MOST_ROWS} of the {len(report.repairs)} repairs "
               f"and of the {len(report.reported)} ends.</p>\n")


def by_kind(report: Report) -> Iterator[str]:
    """Yields how many ends have each kind of fault."""
    yield "<table><caption>By kind</caption><tr><th>Fault<th>Ends</tr>\n"
    for kind, number in Counter(one.verdict.value for one in report.reported).most_common():
        yield f"<tr><td>{kind}<td class=number>{number}</tr>\n"
    yield "</table>\n"


def by_host(hosts: Sequence[Sequence[Finding]]) -> Iterator[str]:
    """Yields how many ends with a fault each host has, and of what kinds."""
    yield "<table><caption>By host</caption><tr><th>Host<th>Ends<th>Faults</tr>\n"
    for number, faults in enumerate(hosts):
        counts = Counter(one.verdict.value for one in faults)
        kinds = ", ".join(f"{count} {kind}" for kind, count in counts.most_common())
        yield (f'<tr><td><a href="#h{number}">{text(shown(faults[0].end.host))}</a>'
               f"<td class=number>{len(faults)}<td>{kinds}</tr>\n")
    yield "</table>\n"


def not_looked_at(hosts: Sequence[str]) -> Iterator[str]:
    """Yields the hosts without a source."""
    if hosts:
        names = ", ".join(text(shown(name)) for name in hosts)
        yield (f"<details><summary>Hosts that were not looked at: {len(hosts)}</summary>"
               f"<p>{names}</p></details>\n")


def host(report: Report, number: int, faults: Sequence[Finding]) -> Iterator[str]:
    """Yields the section of a host: its ends with a fault."""
    yield (f'<section id="h{number}">\n<h2>{text(shown(faults[0].end.host))}</h2>\n'
           "<table class=faults><tr><th>Port<th>Fault<th>In the plan</tr>\n")
    for fault in faults:
        repair = report.repair_of[report.names.end(fault.end)]
        yield (f"<tr><td><b>{text(shown(fault.end.port))}</b><td>{text(report.texts.text(fault))}"
               f' <small><a href="#r{repair}">repair {repair}</a></small>'
               f"<td>{planned(report, fault.end)}</tr>\n")
    yield "</table>\n</section>\n"


def planned(report: Report, end: End) -> str:
    """Returns what the plan says of an end: its line, its further columns and its path."""
    planned = report.planned(end)
    parts = [] if planned.line is None else [f"line {planned.line}"]
    parts += [f"{text(name)} <b>{text(value)}</b>" for name, value in report.plan.details(planned)]
    if planned.detail.path:
        parts.append(f"through {', '.join(text(str(one)) for one in planned.detail.path)}")
    return f"<small>{', '.join(parts)}</small>" if parts else ""


def text(name: str) -> str:
    """Escapes a text for HTML. Words that may run from right to left are isolated by <bdi>."""
    escaped = html.escape(printable(name))
    if escaped.isascii():
        return escaped
    return WORD.sub(lambda word: word[0] if word[0].isascii() else f"<bdi>{word[0]}</bdi>", escaped)
