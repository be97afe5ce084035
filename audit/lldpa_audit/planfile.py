"""Reads plans: links in DOT, CSV or NetBox's JSON, followed through patch panels."""
from collections import Counter, defaultdict
from typing import Container, Iterable, Iterator, Mapping, Optional, Sequence, Union

from .columns import Columns
from .devices import Devices, places_of
from .dot import edges_of, is_dot
from .names import LONGEST, MOST_NAMED, End, Names, shown
from .netbox import COMMENTED, DETAILS, Cable, cables_of, without_tags
from .panels import Panels, fewest_links
from .plan import NO_DETAIL, Detail, Faults, Link, Plan
from .rows import rows_of, text_of


UNPAIRED = "the ends cannot be paired"
ELSEWHERE = "a device of another site has the name of one here"


class PlanFile:
    """Reads the links of a file. `left_out` counts the cables that are left out, by reason.
    `at_panels` maps each end that the file calls a panel's port to the cable's other end,
    `breakouts` has the ends with several links, and `unclear` the ends of each cable that cannot
    be judged, by the reason. With `site`, only the cables of this site are read."""

    def __init__(self, file: str, columns: Optional[Mapping[str, str]] = None,
                 has_panels: bool = True, names: Names = Names(), site: str = "") -> None:
        self.text = text_of(file)
        self.faults = Faults(file)
        self.left_out: Counter[str] = Counter()
        self.others: Sequence[str] = ()
        self.at_panels: dict[End, End] = {}
        self.breakouts: set[End] = set()
        self.unclear: dict[str, list[Sequence[End]]] = defaultdict(list)
        self.is_untyped = False
        self._devices = Devices(names, self.faults)
        self._site = site
        self._given = columns
        self._names: dict[str, str] = {}
        self._has_panels = has_panels

    def links(self) -> Iterator[Link]:
        """Yields the links. Without a list of panels, links that end at a panel are omitted."""
        for cable in self._cables():
            if isinstance(cable, str):
                self.left_out[cable] += 1
                continue
            for link in self._links_of(cable):
                if self._has_panels or not self.at_panels or not self.at_panels.keys() & link[:2]:
                    yield link

    def _cables(self) -> Iterator[Union[Cable, str]]:
        """Returns each cable, or why it is left out."""
        if self.text.lstrip()[:1] in ("{", "["):  # CSV and DOT do not begin with these
            self.others = DETAILS
            return self._of_site(cables_of(self.text, self.faults))
        if is_dot(self.text):
            self.is_untyped = True
            return self._of_site(edges_of(self.text, self.faults))
        return self._cables_of_rows()

    def _cables_of_rows(self) -> Iterator[Union[Cable, str]]:
        """Yields each cable of a CSV file, or why it is left out."""
        marked: set[int] = set()
        rows = rows_of(self.text, self.faults, marked)
        line, header = next(rows, (1, []))
        columns = Columns(header, line, self.faults, self._given)
        self.others, self.is_untyped = columns.others, columns.is_untyped
        if columns.can_read:
            found = self._of_site(cables_in(rows, columns,
                                            marked if columns.has_host_first else ()))
            yield from without_tags(list(found)) if columns.has_headings else found

    def _of_site(self, cables: Iterable[Union[Cable, str]]) -> Iterator[Union[Cable, str]]:
        """Yields the cables of the chosen site, or all if none is chosen."""
        if not self._site:
            yield from cables
            return
        whole = list(cables)
        places = [place for cable in whole if isinstance(cable, Cable)
                  for place in places_of(cable)]
        here = {self._devices.key(end.host) for end, device in places if device[1] == self._site}
        if not here:
            sites = ", ".join(sorted({shown(device[1]) for _, device in places if device[1]}))
            self.faults.add(None, f"it has no cable of the site {shown(self._site)}, only of "
                                  f"{sites}" if sites else
                            "it does not say the sites of devices, so --site cannot be given")
        for cable in whole:
            at = () if isinstance(cable, str) else list(places_of(cable))
            away = [end for end, device in at if device[1] != self._site]
            if at and len(away) == len(at):
                yield "of another site"
            elif any(self._devices.key(end.host) in here for end in away):
                ends = [end for end, _ in at]
                if ends not in self.unclear[ELSEWHERE]:
                    self.unclear[ELSEWHERE].append(ends)
            else:
                yield cable

    def _links_of(self, cable: Cable) -> Sequence[Link]:
        """Returns the links of a cable. Remembers ends at panels and ends with several links."""
        rows, line, texts, at_panels, position, unpaired, devices = cable
        if unpaired:
            self.unclear[UNPAIRED].append([End(*place[:2]) for place in unpaired])
        detail = Detail(texts) if texts else NO_DETAIL
        links, kept = [], self._names
        for at, row in enumerate(rows):
            if devices and not self._devices.are_clear(row, devices[at], line):
                continue
            host, port, peer, peer_port = [kept.get(name) or self._kept(name, line) for name in row]
            links.append(Link(End(host, port), End(peer, peer_port), line, None, detail, None,
                              position))
        if at_panels[0]:
            self.at_panels.update((link.one, link.other) for link in links)
        if at_panels[1]:
            self.at_panels.update((link.other, link.one) for link in links)
        if len(links) > 1:
            if links[0].one == links[1].one:
                self.breakouts.add(links[0].one)
            elif links[0].other == links[1].other:
                self.breakouts.add(links[0].other)
        return links

    def _kept(self, name: str, line: Optional[int]) -> str:
        """Returns a name. Each is kept only once, since many rows have it."""
        if len(name) > LONGEST:
            self.faults.add(line, f"a name in it has {len(name)} characters, but LLDP can send "
                                  f"only {LONGEST}")
        else:
            self._names[name] = name
        return name


def cables_in(rows: Iterable[tuple[int, Sequence[str]]], columns: Columns,
              comments: Container[int]) -> Iterator[Union[Cable, str]]:
    """Yields the cable in each row, or why it is left out. Some lines are comments."""
    for line, row in rows:
        cable = COMMENTED if line in comments else columns.cable(line, row)
        if cable:
            yield cable


def read_plan(file: str, names: Names, columns: Optional[Mapping[str, str]] = None,
              panels: Optional[str] = None, site: str = "") -> Plan:
    """Reads a plan, and follows its links through listed panels. With `site`, only the cables of
    this site are read. Raises PlanFault and OSError."""
    read = PlanFile(file, columns, panels is not None, names, site)
    links: Iterable[Link] = read.links()
    followed = None
    if panels is not None:
        of_panels = PlanFile(panels)
        followed = Panels(of_panels.links(), names, read.faults, of_panels.faults)
        of_panels.faults.end()
        links = followed.through(links)
    plan = Plan(file, links, names, read.faults, read.breakouts)
    if not plan.ends and not plan.breakouts:
        read.faults.add(None, "it has no link to judge; for cables at patch panels, give --panels")
        read.faults.end()
    begins = ([begin for begin, _ in followed.dead_ends] if followed else
              [end for end in read.at_panels.values() if end not in read.at_panels])
    unclear = [ends for some in read.unclear.values() for ends in some]
    plan.not_judged = fewest_links([plan.names.end(end) for end in begins]) + len(unclear)
    unknown = (begins, () if followed else read.at_panels, *unclear)
    plan.unknown = {plan.names.end(end) for some in unknown for end in some}
    plan.columns, plan.is_untyped = read.others, read.is_untyped and followed is None
    plan.notes = [*notes_of(file, read), *notes_of_repeated(plan), *notes_of_unclear(file, read),
                  *notes_of_panels(file, read, followed)]
    return plan


def notes_of(file: str, read: PlanFile) -> list[str]:
    """Returns a note on the cables of a plan that are left out, if there are any."""
    count = sum(read.left_out.values())
    if not count:
        return []
    reasons = ", ".join(f"{times} {reason}" for reason, times in read.left_out.most_common())
    return [f"{file}: {count} {'cable is' if count == 1 else 'cables are'} left out: {reasons}"]


def notes_of_repeated(plan: Plan) -> list[str]:
    """Returns a note on the links that the plan has more than once: they may be of two sites."""
    if not plan.repeated:
        return []
    count, (link, first) = len(plan.repeated), plan.repeated[0]
    lines = f" in lines {first} and {link.line}" if link.line else ""
    return [f"{plan.file}: {count} {'link is' if count == 1 else 'links are'} repeated, such as "
            f"{link.one} with {link.other}{lines}"]


def notes_of_unclear(file: str, read: PlanFile) -> list[str]:
    """Returns a note for each reason for which cables cannot be judged."""
    return [f"{file}: {len(some)} {'cable' if len(some) == 1 else 'cables'} cannot be judged, "
            f"since {why}; the first ends are {', '.join(map(str, some[0][:MOST_NAMED]))}"
            for why, some in read.unclear.items()]


def notes_of_panels(file: str, read: PlanFile, followed: Optional[Panels]) -> list[str]:
    """Returns notes on the cables that cannot be followed through panels."""
    if followed is None:
        count = sum(end not in read.at_panels for end in read.at_panels.values())
        cables = "cable ends" if count == 1 else "cables end"
        return [f"{file}: {count} {cables} at patch panels and cannot be judged: give --panels "
                "with NetBox's export of front ports"] if count else []
    dead_ends = followed.dead_ends
    notes = [f"{begin} cannot be judged: {why}" for begin, why in dead_ends[:MOST_NAMED]]
    if more := len(dead_ends[MOST_NAMED:]):
        notes.append(f"{more} more {'port' if more == 1 else 'ports'} cannot be judged")
    return notes
