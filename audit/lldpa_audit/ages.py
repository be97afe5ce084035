"""Computes the ages of an audit's sources, and converts spans of time to and from text."""
import re
import time
from argparse import ArgumentTypeError
from math import inf
from typing import NamedTuple, Optional, Sequence

UNITS = (("d", 86400, "day"), ("h", 3600, "hour"), ("m", 60, "minute"), ("s", 1, "second"))
SPAN = re.compile(r"([0-9]{1,9}(?:\.[0-9]{1,9})?)([dhms]?)")


BY_FILE = "file:"
MOST_AHEAD = 300.0  # seconds by which two clocks may differ


class Ages(NamedTuple):
    """The ages of the newest and of the oldest source, in seconds, and how many sources do not say
    when they are from."""

    newest: Optional[float]
    oldest: Optional[float]
    undated: int

    def __str__(self) -> str:
        if self.newest is None or self.oldest is None:
            return "of unknown age"
        newest, oldest = worded(self.newest), worded(self.oldest)
        text = f"{oldest} old" if newest == oldest else f"{newest} to {oldest} old"
        return f"{text}, {self.undated} of unknown age" if self.undated else text


class Limit(NamedTuple):
    """How old a source may be, in seconds. If `is_by_file`, one that does not say when it is from
    is as old as its file."""

    seconds: float = inf
    is_by_file: bool = False

    def why_not(self, seen: float, now: float) -> str:
        """Returns why a source of this time, 0 if unknown, is not used, or an empty text."""
        if self.seconds == inf:
            return ""
        if not seen:
            return "it does not say when it is from: see --stale-after"
        if seen - now > MOST_AHEAD:
            return f"it is from {worded(seen - now)} in the future: is a clock wrong?"
        return f"it is {worded(now - seen)} old" if now - seen > self.seconds else ""


def ages_of(times: Sequence[float]) -> Ages:
    """Returns the ages of sources of these times, 0 if unknown. A time in the future counts as
    now."""
    now = time.time()
    ages = [max(now - one, 0.0) for one in times if one]
    return Ages(min(ages, default=None), max(ages, default=None), len(times) - len(ages))


def moment_of(text: str) -> float:
    """Reads a time in seconds since 1970, or in thousandths, millionths or billionths of them.
    Returns 0 if there is none."""
    try:
        moment = float(text)
    except ValueError:
        return 0.0
    if not 0 < moment < 1e20:
        return 0.0
    while moment > 1e11:  # in seconds, this is the year 5138
        moment /= 1000
    return moment


def worded(seconds: float) -> str:
    """Returns a span in the largest unit that fits at least once, such as `3 days`."""
    _, size, name = next((unit for unit in UNITS if seconds >= unit[1]), UNITS[-1])
    count = int(seconds // size)
    return f"{count} {name}{'' if count == 1 else 's'}"


def seconds_of(text: str) -> float:
    """Reads a span such as `90` (seconds), `15m`, `12h` or `1d`. Raises ArgumentTypeError."""
    found = SPAN.fullmatch(text)
    if found is None:
        raise ArgumentTypeError(f"{text!r} is not a time such as 90, 15m, 12h or 1d")
    sizes = {mark: size for mark, size, _ in UNITS}
    return float(found[1]) * sizes[found[2] or "s"]


def limit_of(text: str) -> Limit:
    """Reads a span, perhaps with `file:` before it. Raises ArgumentTypeError."""
    return Limit(seconds_of(text[len(BY_FILE):] if text.startswith(BY_FILE) else text),
                 text.startswith(BY_FILE))
