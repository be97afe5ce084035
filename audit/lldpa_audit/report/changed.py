"""Reports what has changed since earlier lists, as lines and as JSON."""
from typing import Iterator

from ..changes import CAME, MOVED, RENAMED, REPLACED, WENT, Change, Changes
from ..names import first_of, shown, text_of
from .objects import Json, dumped, json_of_ages, json_of_end, listed

KINDS = (MOVED, RENAMED, REPLACED, CAME, WENT)


def text_of_change(one: Change) -> str:
    """Returns a change as its line shows it."""
    if one.kind == RENAMED:
        other = ", with another chassis ID" if one.is_other else ""
        names = " is now ".join(map(shown, one.hosts))
        return f"renamed: {names}{other}, at {links(len(one.now))}"
    if one.kind == REPLACED:
        (near, far), (old, new) = one.now[0], one.hosts
        return f"replaced: {far} at {near} announces {new}, announced {old}"
    if one.kind == MOVED:
        (end, now), (_, before) = one.now[0], one.before[0]
        return f"moved: {end} is at {now}, was at {before}"
    return f"{one.kind}: {' with '.join(map(str, (*one.now, *one.before)[0]))}"


def lines_of(found: Changes) -> Iterator[str]:
    """Yields a line for each change, and how many there are."""
    yield from map(text_of_change, found.changes)
    yield count_of(found)


def count_of(found: Changes) -> str:
    """Returns how many links and changes there are, and how old the sources are."""
    counts = [sum(one.kind == kind for one in found.changes) for kind in KINDS]
    kinds = [f"{count} {kind}" for count, kind in zip(counts, KINDS) if count]
    texts = [f"{links(found.now)}, {found.before} before: {', '.join(kinds) or 'no change'}"]
    if found.hosts:
        texts.append(f"{found.not_compared} not compared ({', '.join(first_of(found.hosts))})")
    return "; ".join([*texts, f"sources {found.ages[1]}", f"before: {found.ages[0]}"])


def links(count: int) -> str:
    return "1 link" if count == 1 else f"{count} links"


def json_of(found: Changes) -> Iterator[str]:
    """Yields the changes as audit/lldpa-audit-since.schema.json describes them."""
    head: Json = {
        "form": 2,
        "links": {"before": found.before, "now": found.now, "not_compared": found.not_compared},
        "hosts_not_compared": [text_of(host) for host in found.hosts],
        "sources": {"before": json_of_ages(found.ages[0]), "now": json_of_ages(found.ages[1])},
    }
    yield f"{dumped(head)[:-1]}, "
    yield from listed("changes", map(json_of_change, found.changes))
    yield "}\n"


def json_of_change(one: Change) -> Json:
    before, now = one.hosts if one.kind == RENAMED else (None, None)
    return {"kind": one.kind, "text": text_of(text_of_change(one)),
            "before": [[*map(json_of_end, ends)] for ends in one.before],
            "now": [[*map(json_of_end, ends)] for ends in one.now],
            "host_before": None if before is None else text_of(before),
            "host_now": None if now is None else text_of(now)}
