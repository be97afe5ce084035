"""Writes a report as JSON, and escapes octets of texts that are not UTF-8."""
import json
from itertools import islice
from typing import Dict, Iterator, Optional, Sequence, Union

from ..ages import Ages
from ..judging import Finding
from ..names import End, Seen, text_of
from .repairs import TO_DO, Repair
from .report import Report

# values that are written together, since each call of json.dumps takes as long as a short value
AT_A_TIME = 100
Json = Union[None, str, int, float, Sequence["Json"], Dict[str, "Json"]]


def json_of(report: Report) -> Iterator[str]:
    """Yields a report in JSON as audit/lldpa-audit.schema.json describes it."""
    yield f"{dumped(json_of_count(report))[:-1]}, "
    yield from listed("repairs", (json_of_repair(report, number, one)
                                  for number, one in enumerate(report.repairs, 1)))
    yield ", "
    yield from listed("ends", (json_of_finding(report, one) for one in report.in_order()))
    yield "}\n"


def listed(name: str, values: Iterator[Json]) -> Iterator[str]:
    """Yields a field with a list of values, some at a time as soon as they are made."""
    yield f'"{name}": ['
    between = ""
    while some := list(islice(values, AT_A_TIME)):
        yield between + dumped(some)[1:-1]
        between = ", "
    yield "]"


def dumped(value: Json) -> str:
    """Returns a value in JSON, in which no `##` can begin a command of a pipeline's runner."""
    return json.dumps(value).replace("##", "#\\u0023")


def json_of_count(report: Report) -> Json:
    count = report.count
    cables = {state.replace(" ", "_"): number for state, number in count.cables.items()}
    return {
        "form": 4,
        "cables": {"planned": count.planned, **cables},
        "right_by": {**count.by},
        "unplanned": count.unplanned,
        "hosts_not_looked_at": [text_of(host) for host in count.hosts],
        "sources": json_of_ages(count.ages),
    }


def json_of_ages(ages: Ages) -> Json:
    newest, oldest = (None if age is None else round(age, 3) for age in ages[:2])
    return {"newest": newest, "oldest": oldest, "undated": ages.undated}


def json_of_repair(report: Report, number: int, repair: Repair) -> Json:
    """Returns a repair: its kind, where to go, what is wrong, and the ends that it mends."""
    return {
        "number": number,
        "kind": repair.kind,
        "do": TO_DO[repair.kind],
        "host": text_of(repair.end.host),
        "port": text_of(repair.end.port),
        "place": text_of(report.place(repair)),
        "text": text_of(repair.text),
        **json_of_plan(report, repair.end),
        "mends": [json_of_end(fault.end) for fault in repair.mends],
        "links": report.links_of(repair),
    }


def json_of_finding(report: Report, finding: Finding) -> Json:
    text = report.texts.text(finding)
    return {
        "host": text_of(finding.end.host),
        "port": text_of(finding.end.port),
        "verdict": finding.verdict.value,
        "by": finding.by or None,
        "wants": json_of_end(finding.expected),
        "has": [json_of_neighbor(neighbor) for neighbor in finding.has],
        "swapped_with": json_of_end(finding.partner),
        "moved_to": json_of_end(finding.moved_to),
        "text": text_of(text) or None,
        "repair": report.repair_of.get(report.names.end(finding.end)),
        **json_of_plan(report, finding.end),
    }


def json_of_plan(report: Report, end: End) -> Dict[str, Json]:
    """Returns an end's line in the plan, its further columns, and its path through panels."""
    planned = report.planned(end)
    return {"line": planned.line,
            "details": {text_of(name): text_of(text)
                        for name, text in report.plan.details(planned)},
            "path": [json_of_end(one) for one in planned.detail.path]}


def json_of_end(end: Optional[End]) -> Json:
    return None if end is None else {"host": text_of(end.host), "port": text_of(end.port)}


def json_of_neighbor(neighbor: Seen) -> Json:
    """Returns all names of a neighbor's host and port, and its identifiers as they were heard."""
    return {"host_names": [text_of(name) for name in neighbor.hosts],
            "port_names": [text_of(name) for name in neighbor.ports],
            "chassis": text_of(neighbor.chassis), "port_id": text_of(neighbor.port_id)}
