"""Reads LLDP-MIB as `snmpwalk` prints it, with names or with numbers below 1.0.8802.1.1.2."""
import re
from ipaddress import ip_address
from typing import Mapping

from ..names import Seen
from .listing import Listing, SeenFault
from .neighbor import neighbor
from .reading import kind_by_look, kind_of

# a walk begins with an object's name or number and its value, without `=` after `snmpwalk -Oq`
IS_WALK = re.compile(r"(?:[A-Z][A-Za-z0-9-]*::[a-z]\w*|lldp[A-Z][A-Za-z]*|\.?iso|\.?1)[.\[][^\n=]*"
                     r"(?: = |(?<=[0-9\]]) [^\n=])")
# a quoted text may have line feeds, and hexadecimal may continue in further lines
LINE = re.compile(
    r"^(?:(?:LLDP-MIB::)?(lldp[A-Za-z]+)|\.?(?:iso|1)\.0\.8802\.1\.1\.2\.(1(?:\.[0-9]+){4})"
    r"|(IF-MIB::ifName|\.?(?:iso|1)\.3\.6\.1\.2\.1\.31\.1\.1\.1\.1))"
    r'\.([0-9.]+) = (?:(Hex-STRING|STRING|INTEGER): )?("[^"\\]*(?:\\(?s:.)[^"\\]*)*"$'
    r"|.*(?:\n(?:[0-9A-F]{2} ?)+$)*)", re.M)
LOCAL = ("lldpLocPortIdSubtype", "lldpLocPortId", "lldpLocPortDesc")
REMOTE = ("lldpRemChassisIdSubtype", "lldpRemChassisId", "lldpRemPortIdSubtype", "lldpRemPortId",
          "lldpRemPortDesc", "lldpRemSysName")
NAMES = {**{f"1.3.7.1.{number}": name for number, name in enumerate(LOCAL, 2)},
         **{f"1.4.1.1.{number}": name for number, name in enumerate(REMOTE, 4)}}
ORDER = {name: place for place, name in enumerate(NAMES.values())}
# what a walk reads after the last of these objects
AFTER = (len(ORDER),)
IS_AFTER = re.compile(r"lldpRem|lldpX|1\.(?:4\.1\.1\.[1-9][0-9]|4\.[2-9]|[5-9])")
# a line about one of these objects that LINE does not match, as `snmpwalk -OX` prints it
IS_OTHER = re.compile(r"^(?:(?:LLDP-MIB::)?lldp(?:LocPort|Rem)[A-Za-z]*[.\[]"
                      r"|\.?(?:iso|1)\.0\.8802\.1\.1\.2\.1\.(?:3\.7|4\.1)\.)", re.M)
IS_ERROR = re.compile(r"^(?:Timeout: |Error in packet|Error: OID|snmp[a-z]*: )", re.M)
# what a walk prints at last, with the name of the last object, if the agent has no more to read
END_OF_VIEW = "No more variables left in this MIB View"
COMMAND = "use `snmpwalk -v2c -c COMMUNITY HOST 1.0.8802.1.1.2.1`"
# the subtype of a Port ID that is any text, such as Junos' number of the interface
LOCALLY = "7"
NAMELESS = ("some of its ports have a description in place of a name: let the file begin with what "
            "`snmpwalk .. 1.3.6.1.2.1.31.1.1.1.1` prints")
# the subtypes for a MAC address and for a network address, of chassis IDs and of Port IDs
OF_CHASSIS, OF_PORT = ("4", "5"), ("3", "4")

# a row: the text of each of its columns
Row = dict[str, str]


class Walk:
    """The rows of local ports and those of neighbors, by index, and the place of the last object
    that was read: its column and its index, or AFTER."""

    def __init__(self) -> None:
        self.local: dict[str, Row] = {}
        self.remote: dict[str, Row] = {}
        self.last: tuple[int, ...] = ()
        self.names: dict[str, str] = {}  # IF-MIB's names of interfaces, by their numbers

    def lacks(self, index: str) -> bool:
        """Returns whether the walk stopped before it had read all of a neighbor's row. A walk reads
        a column of all rows before the next column."""
        return self.last < (ORDER[REMOTE[-1]], *map(int, index.split(".")))


def read_walk(text: str) -> Listing:
    """Returns the neighbors of each port in a walk. If the walk stopped, the ports of neighbors
    whose rows are incomplete have no data. Raises SeenFault."""
    if not text.endswith("\n"):
        raise SeenFault("its last line is incomplete: it was cut short")
    walk = walk_of(text)
    names = {number: port_name(row, walk.names) for number, row in walk.local.items()
             if LOCAL[1] in row}
    ports: dict[str, list[Seen]] = {name: [] for name in names.values()}
    if len(ports) < len(names) - max(0, [*names.values()].count("") - 1):
        raise SeenFault("two of its ports have the same name in lldpLocPortId or lldpLocPortDesc")
    if not ports:
        raise SeenFault(f"it has no lldpLocPortId: {COMMAND}")
    if walk.last < (ORDER[REMOTE[1]],):
        raise SeenFault("it ends before the neighbors: either the walk stopped, or it had no more "
                        f"to read: {COMMAND}")
    stopped = set()
    for index, row in walk.remote.items():
        _, _, further = index.partition(".")
        number = further.partition(".")[0]
        if number not in names:
            raise SeenFault(f"it has no lldpLocPortId.{number}: {COMMAND}")
        if walk.lacks(index):
            stopped.add(names[number])
        else:
            ports[names[number]].append(seen(row, names[number]))
    why = f"the walk stopped before it had read all of some ports' neighbors: {COMMAND}"
    reasons = dict.fromkeys(sorted(stopped), why)
    if ports.pop("", None) is not None:
        reasons[""] = NAMELESS
    is_sure = not any(is_described(walk.local[number], walk.names) for number in names)
    return Listing({name: some for name, some in ports.items() if name not in stopped}, is_sure,
                   reasons=reasons)


def walk_of(text: str) -> Walk:
    """Returns the rows of a walk, up to an error message in it. Raises SeenFault if they are not in
    the order of a walk, since a line in a neighbor's text could pretend to be a row."""
    walk, end = Walk(), 0
    for found in LINE.finditer(text):
        if walk.last < AFTER and is_error(text, end, found.start()):
            return walk
        name, number, of_interface, index, kind, value = found.groups("")
        end, name = found.end(), name or NAMES.get(number, "")
        if of_interface:
            if not walk.last:  # behind LLDP-MIB, a neighbor's text could pretend to be a name
                walk.names[index] = text_of(kind, value)
        elif not kind and value.startswith(END_OF_VIEW):
            walk.last = AFTER
        elif name in ORDER:
            add(walk, name, index, text_of(kind, value))
        elif IS_AFTER.match(name or number):
            walk.last = AFTER
    is_error(text, end, len(text))
    return walk


def is_error(text: str, begin: int, end: int) -> bool:
    """Returns whether lines between objects have an error message. Raises SeenFault for lines of
    LLDP-MIB in another form."""
    between = text[begin:end]
    other = IS_OTHER.search(between)
    if other:
        line = between[other.start():].partition("\n")[0]
        raise SeenFault(f"{line[:60]!r} is not as snmpwalk prints it without options: {COMMAND}")
    return IS_ERROR.search(between) is not None


def add(walk: Walk, name: str, index: str, value: str) -> None:
    """Adds the value of an object to its row. Raises SeenFault."""
    try:
        place = (ORDER[name], *map(int, index.split(".")))
    except ValueError:  # an index may have thousands of digits, or two dots
        raise SeenFault(f"{name}.{index[:40]} has an invalid index") from None
    if place <= walk.last:
        raise SeenFault(f"{name}.{index} is out of order, as if from another walk: {COMMAND}")
    walk.last = place
    rows = walk.remote if name in REMOTE else walk.local
    rows.setdefault(index, {})[name] = value


def text_of(kind: str, value: str) -> str:
    """Returns a value as text. The text of an enumeration is its number."""
    if kind == "INTEGER":
        return value.rpartition("(")[2].rstrip(")")
    if not kind and value != '""':
        raise SeenFault(f"the value {value[:40]!r} has no type: use snmpwalk without -OQ")
    if kind == "Hex-STRING":
        try:
            return bytes.fromhex(value).decode(errors="surrogateescape")
        except ValueError:
            raise SeenFault(f"{value[:40]!r} is not hexadecimal") from None
    if len(value) > 1 and value[0] == value[-1] == '"':
        return re.sub(r"\\(.)", r"\1", value[1:-1], flags=re.S)
    return value


def port_name(row: Row, names: Mapping[str, str]) -> str:
    """Returns a local port's name: an ID that names an interface, else its name in IF-MIB, its
    description or its ID. Returns an empty text if people may have written the description."""
    subtype, port_id, descr = (row.get(column, "") for column in LOCAL)
    if kind_of(subtype) != "local":
        return port_id
    if is_described(row, names):
        return descr if kind_by_look(descr) == "ifname" else ""
    if subtype == LOCALLY:
        return names.get(port_id, port_id)
    return descr or port_id  # lldpd has the interface's name beside its MAC address


def is_described(row: Row, names: Mapping[str, str]) -> bool:
    """Returns whether only the description of a port may be its name, and people may write it."""
    subtype, port_id, descr = (row.get(column, "") for column in LOCAL)
    return subtype == LOCALLY and port_id not in names and descr not in ("", port_id)


def seen(row: Row, port: str) -> Seen:
    """Returns a neighbor. Raises SeenFault without a chassis ID, port ID or port ID subtype."""
    chassis_kind, chassis, kind, port_id, descr, name = (row.get(column, "") for column in REMOTE)
    if not chassis or not port_id or not kind:
        raise SeenFault(f"{port!r} has a neighbor that lacks a chassis ID, port ID or port ID "
                        f"subtype: {COMMAND}")
    return neighbor(identifier(chassis, chassis_kind, *OF_CHASSIS), kind_of(kind),
                    identifier(port_id, kind, *OF_PORT), name, descr)


def identifier(text: str, subtype: str, of_mac: str, of_network: str) -> str:
    """Returns a chassis ID or Port ID as text, with addresses in their usual form."""
    octets = text.encode(errors="surrogateescape")
    if subtype == of_mac and len(octets) == 6:
        return octets.hex(":")
    if subtype == of_network and len(octets) in (5, 17):
        return str(ip_address(octets[1:]))
    return text
