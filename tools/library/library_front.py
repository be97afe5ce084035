"""Tests the front of the library, crates/lldpa_c/front, with nulls.c and rows that are made of lldpa.h.

A row is a call with NULL in the place of a pointer, with a handle that is not open, or with a port that
the agent does not have. The rows and the front are made of the header by scripts that share nothing.
nulls.c must fail with each wrong front below.
"""
from __future__ import annotations

import re
from typing import Iterator

from library_header import bare, functions
from library_parts import CHECKED, FRONT, TOP, Counts, Library, fault_of, ran, write_front

NULLS = TOP / "tools" / "library" / "c" / "nulls.c"
# What nulls.c tests itself.
OTHERS = ("lldpa_version", "lldpa_open", "lldpa_close")
MAY_BE_NULL = ("lldpa_news *news",)

# Each wrong front: its fault, a text that occurs once in checked.awk or lldpa.c, and the wrong text for it.
EDITS = (
    ("a pointer is not checked", 'check = variable " == NULL"', 'check = "false"'),
    ("an array is not checked", '"lacks_octets" : "is_missing"', '"lacks_octets" : "false && is_missing"'),
    ("the bodies of TLVs are not checked", '"lacks_octets" : "is_missing"', '"is_missing" : "is_missing"'),
    ("another number is returned", '"LLDPA_NULL" : "false"', '"LLDPA_OK" : "false"'),
    ("another bool is returned", '"LLDPA_NULL" : "false"', '"LLDPA_NULL" : "true"'),
    ("a handle that is only read is written", '"COPY(" variable ")"', '"(lldpa_agent *)" variable'),
    ("NULL with a length of 0 is passed on", '"SOME(" variable ")"', "variable"),
    ("lldpa_frame passes NULL on", "lldpa_frame(agent, port, SOME(octets)", "lldpa_frame(agent, port, octets"),
    ("NULL with a length of 0 is refused", "return at == NULL && count > 0;", "return at == NULL;"),
    ("lldpa_open accepts options of another size", "options->size < FIRST_OPTIONS ||", "options->size == 0 ||"),
    ("lldpa_open accepts options of a later library", "|| options->size > sizeof given", ""),
    ("lldpa_open does not check the hostname", " && is_whole(&given.hostname)", ""),
    ("lldpa_open does not check the names", "is_there = is_whole(&names[at]);", ""),
    ("lldpa_open reads at most 64 names", "#define MOST_NAMES 65", "#define MOST_NAMES 64"),
    ("lldpa_frame does not check the octets", "is_missing(octets, length) || marks", "marks"),
    ("lldpa_frame writes news if none are wanted", "news == NULL ? proved", "news != NULL ? proved"),
    ("lldpa_close does not check the agent", "if (agent != NULL)", "if (true)"),
)


def values(parameters: list[str]) -> list[str]:
    """Returns an argument for each parameter: memory for a pointer, its length behind it, the first port, or 1."""
    known = {"lldpa_agent": "&agent", "const lldpa_agent": "&agent",
             "const uint8_t": "frame", "const lldpa_tlv": "tlvs"}
    lengths = {"frame": "9", "tlvs": "2"}
    found: list[str] = []
    for at, one in enumerate(parameters):
        if "*" in one:
            found.append(known.get(one.split(" *")[0], f"AT({at})"))
        else:
            found.append(lengths.get(found[-1], "sizeof *now.any") if one.startswith("size_t ") else
                         "0" if one == "uint32_t port" else "1")
    return found


def rows(header: str) -> Iterator[str]:
    """Yields rows for nulls.c: a call and its answer, or two calls with the same result."""
    for name, (answer, *parameters) in functions(bare(header)).items():
        given = values(parameters)

        def call(at: int, *others: str) -> str:
            return f"{name}({', '.join([*given[:at], *others, *given[at + len(others):]])})"

        for at, one in enumerate([] if name in OTHERS else parameters):
            if "*" in one and one not in MAY_BE_NULL:
                yield f"ANSWERS({'LLDPA_NULL' if answer == 'uint8_t' else 'false'}, {call(at, 'NULL')})"
            if "*" in one and re.match("size_t [^*]", "".join(parameters[at + 1:at + 2])):
                yield f"SAME({call(at, 'NULL', '0')}, {call(at, given[at], '0')})"
            if one.endswith("lldpa_agent *agent"):
                yield f"ANSWERS(LLDPA_NOT_OPEN, {call(at, '&none' if one.startswith('const') else '&closed')})"
            if one == "uint32_t port":
                yield f"ANSWERS(LLDPA_NO_PORT, {call(at, '256')})"


def write_rows(library: Library) -> str:
    """Writes the rows for nulls.c. Returns the option with which the compiler finds them."""
    found = rows((library.folder / "lldpa.h").read_text())
    (library.room / "nulls.rows").write_text("".join(f"{row}\n" for row in found))
    return f"-I{library.room}"


def check_front(library: Library, counts: Counts) -> None:
    """Checks that nulls.c passes with the front, which then passes no NULL on, and fails with each wrong front."""
    header, front, rules = (path.read_text() for path in (library.folder / "lldpa.h", FRONT, CHECKED))
    tests, built = library.room / "nulls.o", library.room / "front"
    compile = ["cc", "-std=gnu99", "-fsanitize=nonnull-attribute", "-fsanitize-undefined-trap-on-error",
               f"-I{library.room}"]
    write_rows(library)
    counts.judge(fault_of([*compile, f"-I{library.folder}", "-c", NULLS, "-o", tests]), "building nulls.c")
    for what, old, new in (("none", "", ""), *EDITS):
        write_front(library.room, header, front.replace(old, new), rules.replace(old, new))
        fault = fault_of([*compile, library.room / "front.c", tests, library.folder / "proved.a", "-o", built])
        is_wrong = fault is None and ran([built]).returncode != 0
        is_right = (front + rules).count(old) == 1 and is_wrong if old else fault is None and not is_wrong
        counts.judge(None if is_right else fault or "it is not noticed", f"a wrong front: {what}")
