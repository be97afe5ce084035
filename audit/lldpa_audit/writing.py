"""Writes a plan of the links that are seen, in CSV, with how sure each link is."""
import csv
import os
from collections import Counter, defaultdict
from contextlib import suppress
from typing import Iterable, Iterator, Mapping, NamedTuple, Sequence

from lldpa.texts import printable

from .ages import Ages
from .heard import Link
from .names import LONGEST, MOST_NAMED, End, shown
from .order import in_turn
from .seen.tables import Tables

HEADER = ("host", "port", "peer", "peer_port", "seen")
BOTH, ONE = "by both ends", "by one end"
# a spreadsheet would take a field that begins with one of these for a formula
FORMULAS = ("=", "+", "-", "@")


class Row(NamedTuple):
    """A row of the plan: the two ends of a link, and BOTH or ONE."""

    one: End
    other: End
    seen: str


def rows_of(links: Sequence[Link], tables: Tables) -> tuple[list[Row], list[str]]:
    """Returns a row for each link that a plan can have, sorted, and notes on what is left out."""
    links = apart(links, tables)
    both = Counter(key for link in links if link.is_mutual for key in link.keys)
    either = Counter(key for link in links for key in link.keys)
    rows: list[Row] = []
    left: list[str] = []
    for link in links:
        why = why_not(link, both if link.is_mutual else either)
        if why:
            left.append(f"{link.ends[0]} with {link.ends[1]} is left out: {why}")
            continue
        one, other = sorted(link.ends, key=in_turn) if link.is_mutual else link.ends
        rows.append(Row(one, other, BOTH if link.is_mutual else ONE))
    rows.sort(key=lambda row: (in_turn(row.one), in_turn(row.other)))
    return rows, [*left[:MOST_NAMED], *more_left(left), *names_alike(links, tables)]


def more_left(left: Sequence[str]) -> Iterator[str]:
    if more := len(left[MOST_NAMED:]):
        yield f"{more} more {'link is' if more == 1 else 'links are'} left out"


def apart(links: Sequence[Link], tables: Tables) -> list[Link]:
    """Returns the links. Devices of one name and several chassis IDs are named by these IDs."""
    chassis: dict[End, set[str]] = defaultdict(set)
    for link in links:
        if not link.is_mutual and link.keys[1].host not in tables.hosts:
            chassis[link.keys[1]].add(link.seen.chassis)
    return [by_chassis(link, tables) if not link.is_mutual
            and len(chassis.get(link.keys[1], ())) > 1 and usable(link.seen.chassis) else link
            for link in links]


def by_chassis(link: Link, tables: Tables) -> Link:
    """Returns a link whose neighbor is named by its chassis ID."""
    far = End(link.seen.chassis, link.ends[1].port)
    key = End(tables.names.host(far.host), link.keys[1].port)
    return link._replace(keys=(link.keys[0], key), ends=(link.ends[0], far))


def why_not(link: Link, times: Mapping[End, int]) -> str:
    """Returns why a plan cannot have a link, or an empty text. `times` counts the links of each
    end: for a link that both ends see, only others of this kind, since it outweighs the rest."""
    if link.keys[0] == link.keys[1]:
        return "a port hears itself"
    bad = next((name for end in link.ends for name in end if not usable(name)), None)
    if bad is not None:
        return f"a plan cannot have the name {shown(bad)}"
    several = next((end for key, end in zip(link.keys, link.ends) if times[key] > 1), None)
    return "" if several is None else f"{several} is seen in several links"


def usable(name: str) -> bool:
    """Returns whether a plan can have a name, and a spreadsheet shows it as it is."""
    return (0 < len(name) <= LONGEST and name == name.strip() and not name.startswith(FORMULAS)
            and name == printable(name))


def names_alike(links: Sequence[Link], tables: Tables) -> Iterator[str]:
    """Yields a note if neighbors have nearly the names of ends here."""
    loose = tables.names.looser("case", "domain", "spelling")
    here = {loose.end(key) for key in tables.ends}
    alike = [link for link in links if not link.is_mutual and link.keys[1] not in tables.ends
             and loose.end(link.ends[1]) in here]
    for link in alike[:1]:
        like = next(known.end for key, known in tables.ends.items()
                    if loose.end(key) == loose.end(link.ends[1]))
        count = len(alike) - 1
        more = (f", and {count} more neighbor{'s may be ports' if count > 1 else ' may be a port'} "
                "here") if count else ""
        yield (f"{link.ends[1]} may be {like}{more}: see --ignore-case, --short-names, "
               "--vendor-names")


def need_new(file: str) -> None:
    """Raises ValueError if there is a file of this name, so that no plan is lost."""
    if os.path.isfile(file) or os.path.isdir(file):
        raise ValueError(f"{file}: it exists already, and is not overwritten")


def write_new(file: str, rows: Iterable[Row]) -> None:
    """Writes a plan to a file that does not exist yet, or to a pipe or device. Raises OSError."""
    is_new = not os.path.exists(file)
    try:
        with open(file, "x" if is_new else "w", encoding="utf-8", newline="") as opened:
            writer = csv.writer(opened, lineterminator="\n")
            writer.writerow(HEADER)
            writer.writerows((*row.one, *row.other, row.seen) for row in rows)
    except FileExistsError:
        raise
    except BaseException as fault:
        if is_new:  # half a plan would be taken for a whole one
            with suppress(OSError):
                os.unlink(file)
        if isinstance(fault, OSError):
            raise OSError(fault.errno, fault.strerror, file) from None
        raise


def summary_of(file: str, rows: Sequence[Row], ages: Ages) -> str:
    """Returns how many links a plan has, and how sure they are."""
    counts = Counter(row.seen for row in rows)
    kinds = ", ".join(f"{counts[seen]} seen {seen}" for seen in (BOTH, ONE))
    links = "link" if len(rows) == 1 else "links"
    return f"{file}: {len(rows)} {links}: {kinds}; sources {ages}"
