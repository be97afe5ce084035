"""Writes an audit for pipelines: a JUnit report, and metrics for node_exporter."""
import os
import re
import time
from collections import Counter
from contextlib import suppress
from html import escape
from typing import Iterator, Mapping, Optional, Sequence

from lldpa.texts import printable

from ..judging import Finding, Verdict
from ..names import End
from .count import NOT_JUDGED
from .files import write
from .repairs import TO_DO
from .report import Report

NAME = "lldpa-audit"
BEGIN, END = f'<testsuites name="{NAME}"', "</testsuite>\n</testsuites>\n"
MOST_READ = 200  # octets, in which such a report begins so


def junit_of(report: Report, is_partial: bool, damaged: Sequence[str]) -> Iterator[str]:
    """Yields a JUnit report: a failure needs a repair, and an error new data. Ends that nobody
    looked at are errors or, if the audit `is_partial`, skipped. `damaged` says what is wrong
    with sources."""
    unseen = "skipped" if is_partial else "error"
    not_judged = report.count.cables[NOT_JUDGED]
    counted = Counter(element_of(one, unseen) for one in report.findings)
    counted[unseen] += not_judged > 0
    counted["error"] += len(damaged)
    yield from begin_of(report.plan.file, counted)
    for one in report.in_order():
        element = element_of(one, unseen)
        yield case(one.end, element, text_of_case(report, one) if element else "", one.by,
                   report.plan.file, report.planned(one.end).line)
    if not_judged:
        yield case(End("not judged", "panels"), unseen,
                   f"cables that cannot be judged: {not_judged}", file=report.plan.file)
    yield from map(case_of_fault, damaged)
    yield END


def begin_of(file: str, counted: Mapping[str, int]) -> Iterator[str]:
    """Yields the beginning of a JUnit report with so many test cases with each element."""
    counts = (f'tests="{sum(counted.values())}" failures="{counted["failure"]}" '
              f'errors="{counted["error"]}" skipped="{counted["skipped"]}"')
    yield f'<?xml version="1.0" encoding="UTF-8"?>\n{BEGIN} {counts}>\n'
    yield f"<testsuite name={quoted(file)} {counts}>\n"


def case(end: End, element: str, text: str, by: str = "", file: str = "", line: Optional[int] = None
         ) -> str:
    """Returns a test case, with an element that has this text unless all is right. If it is right
    by weaker names, the output says so."""
    inner = f"<{element} message={quoted(text)}/>" if element else (
        f"<system-out>right by {by}</system-out>" if by else "")
    place = (f" file={quoted(file)}" if file else "") + (f' line="{line}"' if line else "")
    return (f"<testcase classname={quoted(end.host)} name={quoted(end.port)}{place}"
            f"{f'>{inner}</testcase>' if inner else '/>'}\n")


def case_of_fault(text: str) -> str:
    """Returns the test case of what is wrong with arguments, a plan or a source."""
    found = re.match(r"(.+?): (?:line ([0-9]+): )?", text)
    file, line = (found[1], int(found[2] or 0)) if found else ("", 0)
    return case(End(NAME, file or text), "error", text, file=file, line=line)


def write_failure(file: str, texts: Sequence[str]) -> None:
    """Writes a JUnit report of an audit that failed, so that none of an earlier audit seems to be
    of this one. Does not replace a file of another kind, since with wrong arguments it may be
    the plan."""
    with suppress(OSError):
        if file and (not os.path.isfile(file) or is_report(file)):
            write(file, [*begin_of(file, Counter(error=len(texts))),
                         *map(case_of_fault, texts), END])


def is_report(file: str) -> bool:
    """Returns whether a file is empty, or begins like a JUnit report of an audit."""
    with open(file, "rb") as opened:
        front = opened.read(MOST_READ)
    return not front or BEGIN.encode() in front


def element_of(one: Finding, unseen: str) -> str:
    """Returns the element of an end's test case, or an empty text if all is right."""
    return {Verdict.RIGHT: "", Verdict.KNOWN: "skipped", Verdict.NO_DATA: "error",
            Verdict.NOT_LOOKED_AT: unseen}.get(one.verdict, "failure")


def text_of_case(report: Report, one: Finding) -> str:
    """Returns why an end's test case fails or is skipped."""
    if one.verdict is Verdict.NOT_LOOKED_AT:
        return "not looked at: no source covers either end of its cable"
    if one.verdict is Verdict.KNOWN:
        return one.reason
    number = report.repair_of.get(report.names.end(one.end))
    return f"{report.texts.text(one)} (repair {number})"


def quoted(text: str) -> str:
    """Returns a text as the value of an attribute."""
    return f'"{escape(printable(text))}"'


def metrics_of(report: Report) -> Iterator[str]:
    count, now = report.count, time.time()
    verdicts = Counter(one.verdict.value for one in report.findings)
    kinds = Counter(repair.kind for repair in report.repairs)
    ages = {"newest": count.ages.newest, "oldest": count.ages.oldest}
    yield gauge("cables", "Planned cables by state.", "state", count.cables)
    yield gauge("ends", "Ends by verdict.", "verdict", {
        one.value: verdicts[one.value] for one in Verdict})
    yield gauge("repairs", "Repairs by kind.", "kind", {kind: kinds[kind] for kind in TO_DO})
    yield gauge("source_timestamp_seconds", "When the newest and the oldest source were made.",
                "source", {name: now - age for name, age in ages.items() if age is not None})
    yield gauge("undated_sources", "Sources that do not say when they are from.", "",
                {"": count.ages.undated})
    yield gauge("run_timestamp_seconds", "Time of the audit.", "", {"": now})


def gauge(name: str, help_text: str, label: str, values: Mapping[str, float]) -> str:
    """Returns a metric with a line for each value, or an empty text if there are no values."""
    name = f"lldpa_audit_{name}"
    lines = [f"# HELP {name} {help_text}\n# TYPE {name} gauge\n"] if values else []
    for text, value in values.items():
        labels = f'{{{label}="{text}"}}' if label else ""
        lines.append(f"{name}{labels} {value:.15g}\n")
    return "".join(lines)
