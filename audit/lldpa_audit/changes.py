"""Compares the links that were seen earlier with those that are seen now."""
from collections import defaultdict
from typing import Callable, Iterable, Iterator, Mapping, NamedTuple, Optional, Sequence

from .ages import Ages, ages_of
from .heard import Link, links_of
from .names import End, Seen, shown
from .order import Key, in_turn, natural
from .seen.tables import Tables
from .spelling import plain_chassis

CAME, WENT, MOVED, RENAMED, REPLACED = "came", "went", "moved", "renamed", "replaced"
# a device with another chassis ID is only taken for a renamed one if it has so many of its links
FEWEST = 2
Ends = tuple[End, End]


class Change(NamedTuple):
    """What has changed: a link came, went or was moved at one end, a host has another name, or a
    device with the same names announces other IDs. `before` and `now` have the links in question.
    The first end of a moved link is the one that stayed. `hosts` has a renamed host's names before
    and now, or the IDs of a replaced device; `is_other` is true if a renamed host's chassis ID is
    not the same."""

    kind: str
    before: Sequence[Ends]
    now: Sequence[Ends]
    hosts: tuple[str, str] = ("", "")
    is_other: bool = False


class Changes(NamedTuple):
    """The changes, how many links there were before and are now, and how many of both cannot be
    compared. `hosts` has the hosts with data at one of the two times only, even if all their links
    can be compared. `ages` has the ages of the sources then and now."""

    changes: Sequence[Change]
    before: int
    now: int
    not_compared: int
    hosts: Sequence[str]
    ages: tuple[Ages, Ages]


class Side(NamedTuple):
    """What was seen at one time."""

    tables: Tables
    links: Mapping[frozenset[End], Link]

    def has(self, link: Link, other: "Side") -> bool:
        """Returns whether a link that the other side has is seen: an end of it hears the other."""
        one, far = link.keys
        return self.hears(one, far, link.seen) or self.hears(
            far, one, other.tables.heard(far, one) if link.is_mutual else None)

    def hears(self, end: End, far: End, announced: Optional[Seen]) -> bool:
        """Returns whether an end hears another one. If it is known what this one announced at the
        other time, its IDs are compared, else its names."""
        return any(self.is_it(one, far, announced) for one in self.tables.neighbors(end))

    def is_it(self, seen: Seen, far: End, announced: Optional[Seen]) -> bool:
        names = self.tables.names
        ids = [(plain_chassis(one.chassis), names.plain_port(one.port_id))
               for one in (seen, announced) if one is not None]
        same = [one == other for one, other in zip(*ids) if one and other] if announced else []
        return all(same) and (names.answers(seen, far) if len(same) < 2 else
                              far.host in names.hosts_of(seen))

    def covers(self, link: Link) -> bool:
        """Returns whether this side has data of an end that sees a link of the other side."""
        return any(self.tables.covers(key) for key in link.keys[:2 if link.is_mutual else 1])


def compared(before: Tables, now: Tables) -> Changes:
    """Returns what has changed between two times."""
    old, new = (Side(tables, {frozenset(link.keys): link for link in links_of(tables)})
                for tables in (before, now))
    went, lost = missing(old, new)
    came, added = missing(new, old)
    renames = list(renamed(went, came, old, new))
    reported = {id(link) for _, pairs in renames for pair in pairs for link in pair[:2]}
    went, came = ([link for link in some if id(link) not in reported] for some in (went, came))
    changes = [change for change, _ in renames] + list(of_links(went, came))
    hosts = [side.tables.hosts[host] for side, other in ((old, new), (new, old))
             for host in side.tables.with_data() - other.tables.with_data()]
    return Changes(sorted(changes, key=place_of), len(old.links), len(new.links),
                   len(lost) + len(added), sorted(hosts, key=natural),
                   (ages_of(before.times), ages_of(now.times)))


def missing(side: Side, other: Side) -> tuple[list[Link], list[Link]]:
    """Returns the links of a side that the other does not have, and those that it cannot know."""
    found: tuple[list[Link], list[Link]] = [], []
    for link in side.links.values():
        if not other.has(link, side):
            found[0 if other.covers(link) else 1].append(link)
    for links in found:
        links.sort(key=lambda link: [in_turn(end) for end in link.ends])
    return found


def place_of(change: Change) -> tuple[tuple[Key, Key, End], ...]:
    """Returns the sort key of a change: its first link's first end."""
    return tuple(in_turn(end) for end in (*change.now, *change.before)[0])


class Pair(NamedTuple):
    """A link that went and one that came, which share an end. The other ends are on hosts of
    different names, and have the same port. The hosts have the same chassis ID if `is_same`."""

    went: Link
    came: Link
    is_same: bool


def renamed(went: Sequence[Link], came: Sequence[Link], old: Side, new: Side
            ) -> Iterator[tuple[Change, Sequence[Pair]]]:
    """Yields the hosts that were renamed and their links: one name is gone, another is new, and at
    least one link has the same chassis ID or at least FEWEST links are as before."""
    gone = hosts_of(old) - hosts_of(new)
    fresh = hosts_of(new) - hosts_of(old)
    reported: set[str] = set()
    for (host, other), pairs in pairs_of(went, came, old, new).items():
        is_same = any(pair.is_same for pair in pairs)
        if (host in gone and other in fresh and not reported & {host, other}
                and (is_same or len(pairs) >= FEWEST)):
            reported.update((host, other))
            names = name_in(pairs[0].went, host), name_in(pairs[0].came, other)
            yield Change(RENAMED, [pair.went.ends for pair in pairs],
                         [pair.came.ends for pair in pairs], names, not is_same), pairs


def hosts_of(side: Side) -> set[str]:
    return {key.host for link in side.links.values() for key in link.keys}


def name_in(link: Link, host: str) -> str:
    """Returns the name that a link shows for a normalized host."""
    return link.ends[0 if link.keys[0].host == host else 1].host


def pairs_of(went: Sequence[Link], came: Sequence[Link], old: Side, new: Side
             ) -> Mapping[tuple[str, str], Sequence[Pair]]:
    """Returns the pairs of links that a renamed host would explain, by its two names."""
    shared = by_end(came)
    found: dict[tuple[str, str], list[Pair]] = defaultdict(list)
    for link in went:
        for near, far in (link.keys, link.keys[::-1]):
            for other in shared.get(near, ()):
                its_far = other.keys[1 - other.keys.index(near)]
                if far.port == its_far.port and far.host != its_far.host:
                    chassis = [plain_chassis(seen.chassis) if seen is not None else ""
                               for seen in (old.tables.heard(near, far),
                                            new.tables.heard(near, its_far))]
                    found[far.host, its_far.host].append(
                        Pair(link, other, chassis[0] == chassis[1] != ""))
    return found


def by_end(links: Iterable[Link]) -> Mapping[End, Sequence[Link]]:
    found: dict[End, list[Link]] = defaultdict(list)
    for link in links:
        for key in link.keys:
            found[key].append(link)
    return found


# whether a link that came may be one that went; the ends at these places are the same
Rule = Callable[[Link, Link, int, int], bool]
RULES: Sequence[Rule] = (
    lambda now, before, at, its: (now.keys[1 - at].host == before.keys[1 - its].host
                                  and now.keys[1 - at] != before.keys[1 - its]),
    lambda now, before, at, its: now.ends == before.ends,
    lambda now, before, at, its: True)


def of_links(went: Sequence[Link], came: Sequence[Link]) -> Iterator[Change]:
    """Yields each link that was moved, came or went. A link was moved if one that went shares an
    end with it. A port of the same host is looked for first, and a device that was replaced by
    one of the same name before a device that was unplugged."""
    shared = by_end(went)
    left = {id(link): link for link in went}
    moved: set[int] = set()
    for rule in RULES:
        for link in came:
            change = None if id(link) in moved else move_of(link, shared, left, rule)
            if change is not None:
                moved.add(id(link))
                yield change
    yield from (Change(CAME, [], [link.ends]) for link in came if id(link) not in moved)
    yield from (Change(WENT, [link.ends], []) for link in left.values())


def move_of(link: Link, shared: Mapping[End, Sequence[Link]], left: dict[int, Link], rule: Rule
            ) -> Optional[Change]:
    """Returns the move of a link, and removes the link that went from `left`; or None. The end that
    is heard is looked for first: it may be of a device without a list, which has moved."""
    for at, key in ((1, link.keys[1]), (0, link.keys[0])):
        for before in shared.get(key, ()):
            its = before.keys.index(key)
            if id(before) in left and rule(link, before, at, its) and not (
                    at and its and are_other_devices(before.seen, link.seen)):
                del left[id(before)]
                if before.ends == link.ends:
                    return Change(REPLACED, [before.ends], [link.ends],
                                  (ids_shown(before.seen), ids_shown(link.seen)))
                return Change(MOVED, [(before.ends[its], before.ends[1 - its])],
                              [(link.ends[at], link.ends[1 - at])])
    return None


def are_other_devices(one: Seen, other: Seen) -> bool:
    """Returns whether two neighbors of one name announce two chassis IDs."""
    chassis = [plain_chassis(seen.chassis) for seen in (one, other)]
    return all(chassis) and chassis[0] != chassis[1]


def ids_shown(seen: Seen) -> str:
    return f"{shown(seen.chassis)} {shown(seen.port_id)}"
