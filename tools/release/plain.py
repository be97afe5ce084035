#!/usr/bin/env python3
"""Makes assembly that each version of GNU as takes out of what the kit's clang writes.

    tools/release/plain.py HEAD < FROM > TO

A name in quotes, such as "lldp_pdu::frame::read", becomes one of letters, digits, `_`, `$` and `.`,
since older versions of as take no others everywhere. Comments go, and `.addrsig`, which only LLVM
knows. HEAD is a file of comments for the top; what precedes its first space begins a comment.
"""
from __future__ import annotations

import argparse
import pathlib
import re
import sys
from collections.abc import Iterator

AS_IT_IS = re.compile(r"\s*\.(asciz|ascii|string|file|ident|section\s+\"\.note)\b")
SECTION = re.compile(r"\s*\.section\b")
QUOTED_SECTION = re.compile(r'\s*\.section\s+"')
QUOTED = re.compile(r'"((?:[^"\\]|\\.)*)"')


class Names:
    """The plain name of each name in quotes. No two are the same, and none is a word of the text."""

    def __init__(self, text: str) -> None:
        self.taken = set(re.findall(r"[\w.$]+", QUOTED.sub("", text)))
        self.made: dict[str, str] = {}

    def plain(self, name: str) -> str:
        if name not in self.made:
            first = "." if name.startswith(".") else ""
            made = first + re.sub(r"[^\w.$]+", ".", name, flags=re.ASCII).strip(".")
            while made in self.taken:
                made += "_"
            self.taken.add(made)
            self.made[name] = made
        return self.made[name]


def plain_lines(text: str, comment: str) -> Iterator[str]:
    """Yields the lines of assembly with plain names. `comment` is what begins a comment."""
    names = Names(text)
    to_the_end = re.compile(rf"\s*{re.escape(comment)}.*")
    for line in text.splitlines():
        if not AS_IT_IS.match(line):
            # Of a section only the name is one; its flags are in quotes too.
            most = 0 if not SECTION.match(line) else 1 if QUOTED_SECTION.match(line) else None
            if most is not None:
                line = QUOTED.sub(lambda found: names.plain(found[1]), line, count=most)
            line = to_the_end.sub("", line)
        if line.strip() and not line.lstrip().startswith(".addrsig"):
            yield line


def main() -> int:
    parser = argparse.ArgumentParser(description=__doc__, formatter_class=argparse.RawDescriptionHelpFormatter)
    parser.add_argument("head", metavar="HEAD", type=pathlib.Path)
    head = parser.parse_args().head.read_text()
    sys.stdout.write(head)
    for line in plain_lines(sys.stdin.read(), head.split(maxsplit=1)[0]):
        print(line)
    return 0


if __name__ == "__main__":
    sys.exit(main())
