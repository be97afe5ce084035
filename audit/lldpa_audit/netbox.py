"""Reads NetBox's cables: which ends each joins, and why some are left out."""
import json
import re
from itertools import product
from typing import Any, Iterator, NamedTuple, Optional, Sequence, Union

from .plan import FIRST, Faults

# the further fields of a cable that are reported with its faults
DETAILS = ("id", "label", "type", "color", "length", "length_unit", "status", "description")

# NetBox's types of cable ends that are network ports or ports of panels
OF_PANELS = ("frontport", "rearport")
PORTS = ("interface", *OF_PANELS)
CIRCUIT = "circuittermination"
GET_ALL = "ask NetBox with ?limit=0, or put all pages into one list"
# names of power and console ports, for exports with NetBox's table headings, which lack the types
OTHER_PORT = re.compile(r"(?:(?:rj45|(?:mini-?)?usb)[ _-]?)?"
                        r"(?:psu?|pem|pwr|power|outlet|inlet|con|console|serial|tty[a-z]?|aux)"
                        r"(?:[ _-]?(?:supply|feed|port))?[ _:/.-]?[a-z]?[0-9]{0,3}", re.I)

# what NetBox's tables show behind the name of a device that has an asset tag
TAG = re.compile(r"(.+) \([^()]+\)")
# reasons to leave out a cable of NetBox, or any cable
COMMENTED = "in a line that begins with #"
POWER, ABSENT, FREE = ("for power or consoles", "with the status planned or decommissioning",
                       "with an end that is not a port of a device")

# a device's ID in NetBox and its site, if known
Device = tuple[str, str]
# the host and the port of an end, and its device
Place = tuple[str, str, Device]
AT_NO_PANEL = (False, False)
NO_PLACE: Place = ("", "", ("", ""))


class Cable(NamedTuple):
    """A cable of a plan, or a panel's pair of ports with the `position` at the rear port. `rows`
    has host, port, peer and peer's port of each link in the cable, `line` is its line in the
    file, and `texts` are its further columns. `at_panels` says which sides are at a panel. If
    its ends cannot be paired, `rows` is empty, and `unpaired` has them. `devices` has the two
    devices of each row, if the plan tells them."""

    rows: Sequence[Sequence[str]]
    line: Optional[int] = None
    texts: Sequence[str] = ()
    at_panels: tuple[bool, bool] = AT_NO_PANEL
    position: str = FIRST
    unpaired: Sequence[Place] = ()
    devices: Sequence[tuple[Device, Device]] = ()


class Side(NamedTuple):
    """The ends at one side of a cable, and their types in NetBox, if known."""

    ends: Sequence[Place]
    kinds: Sequence[str]

    @property
    def is_at_panel(self) -> bool:
        """Returns whether an end at this side is a port of a panel."""
        return any(kind.endswith(OF_PANELS) for kind in self.kinds)


def between(one: Side, other: Side, kind: str, status: str, line: Optional[int],
            texts: Sequence[str]) -> Union[Cable, str]:
    """Returns the cable between two sides, or why it is left out. The cable joins the first ends of
    both sides, the second ends and so on, or the only end of a side with each end of the other."""
    kinds, ends = [*one.kinds, *other.kinds], [*one.ends, *other.ends]
    if status in ("planned", "decommissioning"):
        return ABSENT
    if kind == "power" or any(its and not its.endswith((*PORTS, CIRCUIT)) for its in kinds):
        return POWER
    if any("" in end[:2] for end in ends) or any(its.endswith(CIRCUIT) for its in kinds):
        return FREE
    if not kinds and any(OTHER_PORT.fullmatch(port) for _, port, _ in ends):
        return POWER
    pairs = [*product(one.ends, other.ends)]
    if len(one.ends) != 1 and len(other.ends) != 1:
        pairs = [*zip(one.ends, other.ends)] if len(one.ends) == len(other.ends) else []
    rows = [(*near[:2], *far[:2]) for near, far in pairs]
    at_panels = one.is_at_panel, other.is_at_panel
    return Cable(rows, line, texts, at_panels, unpaired=() if rows else ends,
                 devices=[(near[2], far[2]) for near, far in pairs])


def without_tags(cables: Sequence[Union[Cable, str]]) -> Iterator[Union[Cable, str]]:
    """Yields the cables, with devices named without their asset tags. If several devices have the
    same name without tags, their names stay as they are."""
    names: dict[str, set[str]] = {}
    for cable in cables:
        for row in cable.rows if isinstance(cable, Cable) else ():
            for name in (row[0], row[2]):
                found = TAG.fullmatch(name)
                names.setdefault(found[1] if found else name, set()).add(name)
    short = {some.pop(): name for name, some in names.items() if len(some) == 1}
    for cable in cables:
        if isinstance(cable, Cable):
            cable = cable._replace(rows=[
                (short.get(a, a), b, short.get(c, c), d) for a, b, c, d in cable.rows])
        yield cable


def cables_of(text: str, faults: Faults) -> Iterator[Union[Cable, str]]:
    """Yields each cable in one or more answers of the API, or why it is left out. Adds faults."""
    try:
        tree = json.loads(text)
    except (ValueError, RecursionError) as fault:
        faults.add(None, f"it cannot be read as JSON: {fault}")
        return
    pages = tree if isinstance(tree, list) else [tree]
    rows: set[object] = set()
    for page in pages:
        found = page.get("results") if isinstance(page, dict) else None
        if not isinstance(found, list):
            faults.add(None, "it is JSON, but not an answer of NetBox's /api/dcim/cables/")
            return
        if page.get("next") and page is pages[-1]:
            faults.add(None, f"its last page names a next one: {GET_ALL}")
        for number, node in enumerate(found):
            key = node.get("id") if isinstance(node, dict) else None
            rows.add(key if isinstance(key, int) else (id(page), number))
            yield cable_of(node)
    counts = [page.get("count") for page in pages]
    count = max((one for one in counts if isinstance(one, int)), default=len(rows))
    if count != len(rows):
        faults.add(None, f"it has {len(rows)} of {count} cables: {GET_ALL}")


def cable_of(node: Any) -> Union[Cable, str]:
    """Returns a cable, or why it is left out."""
    if not isinstance(node, dict):
        return FREE
    texts = [text_of(node.get(name)) for name in DETAILS]
    one, other = side_of(node.get("a_terminations")), side_of(node.get("b_terminations"))
    kind, status = texts[DETAILS.index("type")], texts[DETAILS.index("status")]
    return between(one, other, kind, status, None, texts)


def side_of(terminations: Any) -> Side:
    """Returns one side of a cable. An end that is not a port of a device has empty names."""
    some = terminations if isinstance(terminations, list) else ()
    nodes = [one for one in some if isinstance(one, dict)]
    kinds = [str(node.get("object_type")).partition(".")[2] for node in nodes]
    return Side([end_of(node.get("object")) for node in nodes] or [NO_PLACE], kinds)


def end_of(port: Any) -> Place:
    """Returns the host and the port of an end, both empty if it is not a port of a device."""
    device = port.get("device") if isinstance(port, dict) else None
    if not isinstance(device, dict):
        return NO_PLACE
    host, name = (one.get("name") or one.get("display") or "" for one in (device, port))
    site = device.get("site")
    site = site.get("name") if isinstance(site, dict) else site
    return str(host), str(name), (text_of(device.get("id")), text_of(site))


def text_of(value: Any) -> str:
    """Returns a field of a cable as text. A choice is an object with its text in `value`."""
    if isinstance(value, dict):
        value = value.get("value")
    return "" if value is None else str(value)
