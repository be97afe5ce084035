"""Reads the neighbors of ports in JSON whose form is known."""
import re
from functools import lru_cache
from itertools import product
from typing import Any, Iterator

from ..ages import moment_of
from ..names import NAMELESS, Seen
from .fields import OURS, Form
from .listing import Listing, SeenFault
from .neighbor import MOST_KEPT, neighbor
from .shows import is_aggregated
from .paths import found_by, reader_of, text, texts

LLDP = "LLDP"
# vendors' words for the types of Port ID that are an interface's name or alias
OF_INTERFACES = {"5": "ifname", "1": "ifalias", "interfacename": "ifname", "ifname": "ifname",
                 "interfacealias": "ifalias", "ifalias": "ifalias"}
# what interfaces' names look like: letters and a number, but not a MAC address or a mere number
INTERFACE = re.compile(r"[A-Za-z][A-Za-z-]*[ /]?[0-9][0-9/:.]*(?:[A-Za-z][A-Za-z0-9]*)?")


class Fields:
    """Functions that read the fields of a neighbor in JSON of a form."""

    def __init__(self, form: Form) -> None:
        self.form = form
        self.chassis = reader_of(form.chassis)
        self.port_id = reader_of(form.port_id)
        self.name = reader_of(form.name)
        self.descr = reader_of(form.descr)
        self.kind = reader_of(form.kind) if form.kind else None
        self.addresses = form.addresses
        self.may_be_member = bool(form.aggregate) or form is OURS
        self.has_quotes = form.chassis == "chassisId"

    def seen(self, node: dict[str, Any], port: str) -> Seen:
        """Returns a neighbor. Raises SeenFault if it lacks a name that the form requires."""
        chassis, port_id, name = self.chassis(node), self.port_id(node), self.name(node)
        descr = self.descr(node)
        if not chassis or not port_id:
            self.need_names(chassis, name or chassis, port_id or descr, port)
        kind = kind_of(self.kind(node)) if self.kind else kind_by_look(port_id)
        if self.has_quotes:
            port_id = port_id.strip('"')
        return neighbor(chassis, kind, port_id, name, descr,
                        texts(node, self.addresses) if self.addresses else (),
                        self.may_be_member and self.is_member(node))

    def is_member(self, node: dict[str, Any]) -> bool:
        """Returns whether a neighbor announces that its port is a member of an aggregate."""
        if self.form is OURS:
            return is_aggregated(tuple((f"org.{text(one, 'kind')}", text(one, "octets"))
                                       for _, org in found_by(node, "org")
                                       for one in listed(org, "org")))
        return text(node, self.form.aggregate) not in ("", "0")

    def need_names(self, chassis: str, host: str, its_port: str, port: str) -> None:
        """Raises SeenFault if a neighbor without chassis ID or Port ID lacks what it needs."""
        if not self.form.of_names:
            lacks = (self.form.port_id if chassis else self.form.chassis).partition(",")[0]
            raise SeenFault(f"{port!r} has a neighbor without {lacks}: was it shown without "
                            "`detail`?")
        if not host or not its_port:
            raise SeenFault(f"{port!r} has a neighbor whose host or port has no name")


def listed(node: Any, of: str) -> list[Any]:
    """Returns a list of objects. Some vendors omit the list around one object. Raises SeenFault."""
    some = [node] if isinstance(node, dict) else node
    if type(some) is list:
        for one in some:
            if type(one) is not dict:
                break
        else:
            return some
    raise SeenFault(f"{f'the value of {of!r}' if of else 'it'} is not a list of objects")


def read_form(tree: Any, form: Form) -> Listing:
    """Returns the neighbors in JSON of this form. A neighbor heard by LLDP and by another protocol
    counts once, if both entries share a name of the host and of the port. The list is as old as
    its latest neighbor says. Raises SeenFault."""
    ports: dict[str, list[Seen]] = {}
    others: dict[str, list[Seen]] = {}  # those heard by other protocols
    fields, last = Fields(form), 0.0
    for port, node in ports_of(tree, form):
        heard = ports.setdefault(port, [])
        for one in neighbors_of(node, form, port):
            if form.time:
                last = max(last, moment_of(text(one, form.time)))
            if form.protocol and not is_by_lldp(one, form, port):
                others.setdefault(port, []).append(fields.seen(one, port))
            else:
                heard.append(fields.seen(one, port))
        if form is OURS and node.get("too_many") is True:
            heard.append(NAMELESS)
    for port, some in others.items():
        by_lldp = {pair for one in ports[port] for pair in product(one.hosts, one.ports)}
        ports[port] += [one for one in some if by_lldp.isdisjoint(product(one.hosts, one.ports))]
    return Listing(dict(ports), form is not OURS, time=last)


def is_by_lldp(node: dict[str, Any], form: Form, port: str) -> bool:
    """Returns whether a neighbor was heard by LLDP. Raises SeenFault if it is not said."""
    protocol = text(node, form.protocol)
    if not protocol:
        raise SeenFault(f"{port!r} has a neighbor without a protocol: use "
                        "`lldpcli -f json show neighbors details`")
    return protocol.upper() == LLDP


def listing_of_rows(rows: Any, form: Form) -> Listing:
    """Returns the neighbors in rows of one host or, if the rows name their hosts, of several.
    Raises SeenFault."""
    hosts: dict[str, list[Any]] = {}
    spaces: dict[str, str] = {}
    for row in listed(rows, ""):
        host, space = text(row, form.host), text(row, "namespace")
        if spaces.setdefault(host, space) != space:
            raise SeenFault(f"{host!r} is in two namespaces, {spaces[host]!r} and {space!r}: give "
                            "only one")
        hosts.setdefault(host, []).append(row)
    if "" not in hosts:
        return Listing({}, True, {host: read_form(some, form) for host, some in hosts.items()})
    if len(hosts) > 1:
        raise SeenFault(f"only some of its rows have a {form.host}")
    return read_form(hosts[""], form)


def ports_of(tree: Any, form: Form) -> Iterator[tuple[str, Any]]:
    """Yields each port's name, and the JSON that has its neighbors. Raises SeenFault."""
    places: dict[str, int] = {}
    for name, found in found_by(tree, form.ports):
        for place, node in enumerate(listed(found, form.ports) if form.port else [found], 1):
            port = text(node, form.port) if form.port else name
            if not port:
                raise SeenFault(f"an entry has no {form.port.replace(', ', ' or ') or 'name'}: was "
                                "it shown without `detail`?")
            if form.neighbors and places.setdefault(port, place) != place:
                raise SeenFault(f"the port {port!r} is in it twice: as entries {places[port]} "
                                f"and {place}")
            yield port, node


def neighbors_of(node: Any, form: Form, port: str) -> list[Any]:
    """Returns the neighbors of a port. Raises SeenFault if the field for them is missing."""
    path = form.neighbors
    if not path:
        return listed(node, port)
    found = list(found_by(node, path.removeprefix("?")))
    if not found and not path.startswith("?"):
        raise SeenFault(f"{port!r} has no {path}")
    return [neighbor for _, some in found for neighbor in listed(some, port)]


@lru_cache(MOST_KEPT)
def kind_of(subtype: str) -> str:
    """Returns the kind of a port ID by a vendor's word or number for its subtype."""
    return OF_INTERFACES.get(re.sub(".*:|[ _-]", "", subtype.lower()), "local")


@lru_cache(MOST_KEPT)
def kind_by_look(port_id: str) -> str:
    """Returns the kind of a port ID whose subtype is not given."""
    return "ifname" if INTERFACE.fullmatch(port_id) else "local"
