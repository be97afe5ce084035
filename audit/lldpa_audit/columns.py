"""Finds which columns of a CSV file name the ends of a link: lldpa's, NetBox's, or given ones."""
import re
from typing import Mapping, Optional, Sequence, Union

from .netbox import Cable, Place, Side, between
from .plan import FIRST, Faults

COLUMNS = ("host", "port", "peer", "peer_port")

# the same four columns in NetBox's exports of cables
NETBOX = (
    ("side_a_device", "side_a_name", "side_b_device", "side_b_name"),
    ("termination_a_device", "termination_a_name", "termination_b_device", "termination_b_name"),
    ("termination_a_parent", "termination_a", "termination_b_parent", "termination_b"),
    ("device_a", "termination_a", "device_b", "termination_b"),
    ("side_a", "termination_a", "side_b", "termination_b"),
)

# the columns of a list of panels: `panel,front,rear`, or those of NetBox's export of front ports
PANELS = (("panel", "front", "panel", "rear"), ("device", "name", "device", "rear_port"))


class Columns:
    """Reads the rows of a CSV file by its header, and adds a fault for each error. `others` names
    the further columns, and `can_read` says whether the header names both ends of a link. If
    `is_untyped`, it lacks the types of ends; if `has_host_first`, rows begin with the name of a
    host or port; and if `has_headings`, it is of NetBox's tables, which show asset tags."""

    def __init__(self, header: Sequence[str], line: int, faults: Faults,
                 given: Optional[Mapping[str, str]] = None) -> None:
        self._names = [key_of(name) for name in header]
        self._faults = faults
        self._columns, self._is_of_netbox = self._found(given)
        self.can_read = self._has_all(line)
        self._places = [self._names.index(name) for name in self._columns if self.can_read]
        self._sides = [self._place_of(f"side_{side}_type", f"termination_{side}_type")
                       for side in "ab"]
        self.is_untyped = self._sides == [None, None]
        self.has_host_first = 0 in self._places
        self.has_headings = self._is_of_netbox and tuple(self._columns) in NETBOX[2:]
        self._type, self._status = self._place_of("type"), self._place_of("status")
        self._position = self._place_of("rear_port_position", "position")
        self._sites = [self._place_of("side_a_site", "site_a", "site"),
                       self._place_of("side_b_site", "site_b", "peer_site", "site")]
        self._others = [at for at, name in enumerate(header) if at not in self._places and name]
        self.others = [header[at].strip() for at in self._others]

    def _found(self, given: Optional[Mapping[str, str]]) -> tuple[Sequence[str], bool]:
        """Returns the names of the four columns, and whether they are those of NetBox's cables."""
        if given:
            return [key_of(given.get(name, name)) for name in COLUMNS], False
        for form in NETBOX:
            if set(form) <= set(self._names):
                return form, True
        of_panels = next((form for form in PANELS if set(form) <= set(self._names)), COLUMNS)
        return of_panels, False

    def _has_all(self, line: int) -> bool:
        """Returns whether each of the four columns occurs once, and adds faults if not."""
        count = self._faults.count
        for name in dict.fromkeys(self._columns):
            times = self._names.count(name)
            if times != 1:
                found = "occurs more than once" if times else "is missing"
                self._faults.add(line, f"the column {name} {found}: the header must name the "
                                       f"columns {','.join(dict.fromkeys(self._columns))}")
        return self._faults.count == count

    def _place_of(self, *names: str) -> Optional[int]:
        """Returns the place of the first of these columns that the file has, or None."""
        return next((self._names.index(name) for name in names if name in self._names), None)

    def cable(self, line: int, fields: Sequence[str]) -> Union[Cable, str, None]:
        """Returns the cable of a row, a reason to leave it out, or None if the row has a fault."""
        if len(fields) > len(self._names) and any(fields[len(self._names):]):
            self._faults.add(line, f"it has {len(fields)} fields for {len(self._names)} columns")
            return None
        row = [fields[at].strip() for at in self._places]
        if self._is_of_netbox:
            return self._of_netbox(line, fields, row)
        if "" in row:
            self._faults.add(line, f"its {self._columns[row.index('')]} is missing")
            return None
        texts = self._texts(fields) if self.others else ()
        if self._position is None and self._sites == [None, None]:
            return Cable((row,), line, texts)
        one, other = self._sites_of(fields)
        position = FIRST if self._position is None else fields[self._position].strip() or FIRST
        return Cable((row,), line, texts, position=position, devices=[(("", one), ("", other))])

    def _of_netbox(self, line: int, fields: Sequence[str], row: Sequence[str]
                   ) -> Union[Cable, str, None]:
        """Returns a cable of NetBox, or a reason to leave it out."""
        kinds = [[] if at is None else [plain(fields[at])] for at in self._sides]
        sites = self._sites_of(fields)
        one = Side(ends_of(row[0], row[1], sites[0]), kinds[0])
        other = Side(ends_of(row[2], row[3], sites[1]), kinds[1])
        kind, status = ["" if at is None else plain(fields[at])
                        for at in (self._type, self._status)]
        return between(one, other, kind, status, line, self._texts(fields))

    def _sites_of(self, fields: Sequence[str]) -> Sequence[str]:
        """Returns the site of each side in a row, or empty texts."""
        return ["" if at is None else fields[at].strip() for at in self._sites]

    def _texts(self, fields: Sequence[str]) -> Sequence[str]:
        """Returns the texts of the further columns of a row."""
        return tuple([fields[at].strip() for at in self._others])


def ends_of(hosts: str, ports: str, site: str) -> Sequence[Place]:
    """Returns each port of a side with its host, or () if hosts and ports do not pair up."""
    some, names = re.split(r"\s*,\s*", hosts), re.split(r"\s*,\s*", ports)
    if len(some) not in (1, len(names)):
        return ()
    return [(host, name, ("", site))
            for host, name in zip(some if len(some) > 1 else some * len(names), names)]


def plain(text: str) -> str:
    """Normalizes a field, since NetBox writes both `dcim.frontport` and `Front Port`."""
    return text.strip().lower().replace(" ", "")


def key_of(name: str) -> str:
    """Normalizes a column's name: `Side A` becomes `side_a`."""
    return "_".join(name.lower().split())
