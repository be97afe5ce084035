"""Reads a topology in DOT, as ptmd does: edges between ports, with attributes.

    graph G { "leaf1":"swp1" -- "spine1":"swp3" [color=red]; leaf1:swp2 -- spine2:swp3 }

Attributes, nodes and defaults are skipped. Anything else in DOT, such as subgraphs, is refused.
"""
import re
from typing import Iterator

from .netbox import Cable
from .plan import Faults

# all but letters, digits and `_`; to list the letters of all alphabets takes a tenth of a second
SIGNS = r"\x00-/:-@\[-^`{-\x7f"
NAME = rf'(?:"[^"\\]*(?:\\.[^"\\]*)*"|(?:(?![0-9])[^{SIGNS}]+|[0-9]+)(?![.]|[^{SIGNS}]))'
ATTRIBUTES = r'\[[^]"]*(?:"[^"\\]*(?:\\.[^"\\]*)*"[^]"]*)*\]'
END = rf"({NAME})\s*:\s*({NAME})"
SKIPPED = re.compile(r"(?:\s+|//[^\n]*|#[^\n]*|/\*.*?\*/)*", re.S)
HEAD = re.compile(rf"(?i:(?:strict\s+)?(?:di)?graph)\b\s*(?:{NAME}\s*)?\{{")
EDGE = re.compile(rf"{END}\s*(?:--|->)\s*{END}\s*(?:{ATTRIBUTES})?\s*;?", re.S)
OTHER = re.compile(rf"{NAME}\s*(?:=\s*{NAME}|{ATTRIBUTES}|(?=;))\s*;?", re.S)
LONGEST_SHOWN = 60


def is_dot(text: str) -> bool:
    """Returns whether a text begins like a graph in DOT."""
    return HEAD.match(text, after_skipped(text, 0)) is not None


def edges_of(text: str, faults: Faults) -> Iterator[Cable]:
    """Yields the edges of a graph in order. Stops with a fault at text that is not allowed."""
    found = HEAD.match(text, after_skipped(text, 0))
    before, line = 0, 1
    at = after_skipped(text, found.end() if found else 0)
    while not text.startswith("}", at):
        line += text.count("\n", before, at)
        before = at
        found = EDGE.match(text, at)
        if found is not None:
            names = [name[1:-1].replace('\\"', '"') if name.startswith('"') else name
                     for name in found.groups()]
            if not all(names):
                faults.add(line, "a host or port of the edge has an empty name")
            yield Cable((names,), line)
        else:
            found = OTHER.match(text, at)
        if found is None:
            faults.add(line, refused(text, at))
            return
        at = after_skipped(text, found.end())
    end = after_skipped(text, at + 1)
    if end < len(text):
        faults.add(line + text.count("\n", before, end), refused(text, end))


def after_skipped(text: str, at: int) -> int:
    """Returns the place after blanks and comments."""
    return SKIPPED.match(text, at).end()  # type: ignore[union-attr]  # it may be empty


def refused(text: str, at: int) -> str:
    """Returns the fault of a text that is not an edge between two ports."""
    found = text[at:at + LONGEST_SHOWN].split("\n")[0].rstrip()
    return (f'{found!r} is not an edge such as "leaf1":"swp1" -- "spine1":"swp2"' if found else
            "it ends without }")
