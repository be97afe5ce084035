"""Reads known faults: verdicts that are excused at an end or a host, for a reason, until a day."""
import datetime
from typing import NamedTuple, Optional, Sequence

from .judging import Finding, Verdict
from .names import End, Names, shown
from .plan import Faults, Plan
from .rows import table_of

COLUMNS, FURTHER = ["host", "port", "reason", "until"], ["verdict"]
SILENCE = (Verdict.SILENT, Verdict.ONE_SIDED, Verdict.NO_DATA, Verdict.NOT_LOOKED_AT)
NOT_EXCUSED = (Verdict.RIGHT, Verdict.KNOWN, Verdict.NOT_LOOKED_AT)
VERDICTS = {one.value: (one,) for one in Verdict if one not in NOT_EXCUSED}


class Row(NamedTuple):
    """A row: an end (a host if the port is empty), the verdicts excused there, reason and line."""

    end: End
    verdicts: Sequence[Verdict]
    reason: str
    line: int


class Known(NamedTuple):
    """The rows of a file by normalized end. `notes` names the rows whose last day is over."""

    file: str
    rows: dict[End, list[Row]]
    notes: list[str]

    def reason(self, names: Names, end: Optional[End], verdict: Verdict) -> str:
        """Returns why a verdict at an end is excused, or an empty text if it is not."""
        if end is None:
            return ""
        key = names.end(end)
        rows = (*self.rows.get(key, ()), *self.rows.get(End(key.host, ""), ()))
        return next((row.reason for row in rows if verdict in row.verdicts), "")

    def applied(self, one: Finding, names: Names) -> Finding:
        """Returns a finding, with the verdict `known` if a row excuses its verdict at either end of
        the link. An end without data must be excused itself, since the other end is not the reason.
        If nobody looked at the link, rows must excuse the verdict at both ends."""
        if one.verdict is Verdict.RIGHT:
            return one
        ours, theirs = (self.reason(names, end, one.verdict) for end in (one.end, one.expected))
        if one.verdict is Verdict.NO_DATA:
            reason = ours
        else:
            reason = ours and theirs if one.verdict is Verdict.NOT_LOOKED_AT else ours or theirs
        return one._replace(verdict=Verdict.KNOWN, reason=reason) if reason else one

    def unplanned(self, plan: Plan) -> list[str]:
        """Returns a note on each row that names nothing planned, and so excuses nothing."""
        return [f"{self.file}: line {row.line}: {place_of(row.end)} has no link that can be judged"
                for key, rows in self.rows.items() for row in rows
                if Verdict.UNPLANNED not in row.verdicts
                and (key not in plan.ends if key.port else key.host not in plan.hosts)]


NOTHING_KNOWN = Known("", {}, [])


def read_known(file: str, names: Names, today: datetime.date) -> Known:
    """Reads rows `host,port,reason,until`, perhaps with `verdict`. Raises PlanFault and OSError."""
    faults, known = Faults(file), Known(file, {}, [])
    for line, fields in table_of(faults, COLUMNS, FURTHER):
        host, port, reason, last, verdict, *rest = [*fields, ""]
        until, verdicts = date_of(last), VERDICTS.get(verdict) if verdict else SILENCE
        if rest[1:] or not host or not reason or until is None:
            faults.add(line, "the row needs a host and a reason, a date such as 2026-12-31 or "
                             "nothing in the column until, and at most 5 fields")
        elif verdicts is None:
            faults.add(line, f"{verdict!r} cannot be excused, only {', '.join(VERDICTS)}")
        elif until < today:
            known.notes.append(f"{file}: line {line}: {place_of(End(host, port))} was excused "
                               f"until {until}, and is judged again")
        else:
            key = names.end(End(host, port))
            row = Row(End(host, port), verdicts, reason, line)
            known.rows.setdefault(End(key.host, key.port if port else ""), []).append(row)
    faults.end()
    return known


def place_of(end: End) -> str:
    """Returns an end as a note shows it: only the host if the port is empty."""
    return " ".join(shown(name) for name in end if name)


def date_of(text: str) -> Optional[datetime.date]:
    """Reads a date. Returns the latest possible date for an empty text, None for a wrong text."""
    try:
        return datetime.date.fromisoformat(text) if text else datetime.date.max
    except ValueError:
        return None
