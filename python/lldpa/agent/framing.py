"""Formats the lines that are sent to an agent, and defines the errors of an agent.

The agent does not mark the end of an answer. Therefore a comment that is one octet too long is sent
after the lines. The answer to the lines is everything before `error: line too long`. No other line
has this answer, because all other lines are short enough.
"""

import re
from typing import List, Optional, Union

from ..faults import LldpaFault
from ..limits import LONGEST_LINE, MOST_TICKS

MARK = b"#" * (LONGEST_LINE + 1)
MARK_ANSWER = b"error: line too long"

Line = Union[bytes, str]


class Ended(LldpaFault):
    """The agent ended or does not answer. `status` is None if unknown, -N if signal N killed it."""

    def __init__(self, status: Optional[int], text: str) -> None:
        super().__init__(text)
        self.status = status
        self.text = text


class Closed(Ended):
    """The agent was closed before this call."""

    def __init__(self) -> None:
        super().__init__(None, "the agent was closed")


class Refused(LldpaFault):
    """The agent refused a line. `text` is the part of its answer after `error: `."""

    def __init__(self, text: str) -> None:
        super().__init__(text)
        self.text = text


def checked(line: Line) -> bytes:
    """Returns the octets of a line. Raises ValueError if it contains a line feed or is too long."""
    octets = line.encode("latin-1") if isinstance(line, str) else bytes(line)
    if b"\n" in octets:
        raise ValueError("a line contains a line feed")
    if len(octets) > LONGEST_LINE:
        raise ValueError(f"a line has {len(octets)} octets; the limit is {LONGEST_LINE}")
    return octets


def command(*words: str) -> str:
    """Joins words to a line, quoted if needed. Raises ValueError if one has " or is not Latin-1."""
    for word in words:
        if re.search('["\u0100-\U0010ffff]', word):  # a line is encoded in Latin-1
            raise ValueError(f"a word must be ASCII without double quotes: {word}")
    return " ".join(f'"{word}"' if not word or set(" \t#") & set(word) else word for word in words)


def rx(port: str, octets: bytes) -> str:
    """Returns the line that reports a frame received by a port."""
    return f'rx {port} {octets.hex()}' if octets else f'rx {port} ""'


def ticks(seconds: int) -> List[str]:
    """Returns the `tick` lines for this many seconds. Raises ValueError for a negative number."""
    if seconds < 0:
        raise ValueError(f"the number of seconds is negative: {seconds}")
    whole, rest = divmod(seconds, MOST_TICKS)
    lines = [f"tick {MOST_TICKS}"] * whole
    if rest:
        lines.append("tick" if rest == 1 else f"tick {rest}")
    return lines
