"""Finds which form JSON has, also inside answers of APIs and files of many hosts."""
import re
from typing import Any, Callable, Optional

from lldpa.texts import printable

from ..names import first_of
from .fields import FORMS, NAPALM, ROWS, Form
from .gnmic import is_gnmic, read_gnmic
from .listing import Listing, SeenFault
from .neighbor import clean
from .prometheus import read_prometheus
from .reading import listing_of_rows, read_form
from .paths import begins_of, leads, text

# names under which NAPALM, salt, Ansible, eAPI, NX-API, Junos and gNMI tools put neighbors
GETTERS = [f"{front}lldp_neighbors{detail}" for front in ("", "get_", "napalm_")
           for detail in ("_detail", "")]
WRAPPERS = (*GETTERS, "out", "ansible_facts", "result", "ins_api", "outputs", "output", "body",
            "rpc-reply", "multi-routing-engine-results", "multi-routing-engine-item", "stdout",
            "parsed", "notification", "update", "val", "Cisco-IOS-XR-ethernet-lldp-oper:lldp",
            "srl_nokia-lldp:lldp", "openconfig-lldp:lldp", "lldp", "openconfig-lldp:interfaces",
            "interfaces", "data")
USE_A_LIST = ("use what `show lldp neighbors detail | json` or NAPALM's get_lldp_neighbors_detail "
              "prints")
USE_JSON = "use `lldpcli -f json show neighbors details`"
# for JSON that is not a full list of neighbors: names that lead somewhere in it, and what it is
CAUSES = (
    ("lldpNeighbors neighborDevice", "EOS' short list, without chassis IDs: use `show lldp "
                                     "neighbors detail | json`"),
    ("TABLE_nbor", "NX-OS' short list, without chassis IDs: use `show lldp neighbors detail | "
                   "json`"),
    ("local-chassis", f"what lldpcli says of its own host: {USE_JSON}"),
    (", ".join(f"lldp * chassis {kind}" for kind in ("mac", "local", "ifname", "ip")),
     f"Ansible's facts `lldp`, in which a port has only one neighbor: {USE_JSON}"),
    ("tags subscription-name", "gnmic's events: use `gnmic get --path /lldp/interfaces`"),
    ("nodes node neighbors devices, nodes node neighbors summaries",
     "IOS-XR's neighbors without `details`: ask for nodes/node/neighbors/details"),
)
LONGEST_SHOWN = 200
# an object of none of these paths is a wrapper, or has NAPALM's form: most lists are found so
ROW_SIGNS = ", ".join(form.sign for form in ROWS)
SIGNS = ", ".join([ROW_SIGNS, *(form.sign for form in FORMS), *(paths for paths, _ in CAUSES),
                   "data"])
OF_ANY_NAME = ", ".join(path for path in SIGNS.split(", ") if path.startswith("*"))

ReadText = Callable[[str], Listing]


def listing_of(tree: Any, read_text: ReadText) -> Listing:
    """Returns the neighbors in JSON of any form, of one host or many. Raises SeenFault.
    `read_text` reads a text in JSON, such as what a command printed."""
    found = listing_of_host(tree, read_text)
    if found is not None:
        return found
    hosts = {host: listing_or_fault(one, read_text) for host, one in tree.items()
             } if isinstance(tree, dict) else {}
    if any(not one.faults or is_failed(tree[host]) for host, one in hosts.items()):
        return Listing({}, True, hosts)
    raise unknown(tree)


def listing_of_host(tree: Any, read_text: ReadText) -> Optional[Listing]:
    """Returns the neighbors in JSON of one host, None if its form is unknown. Raises SeenFault."""
    if is_failed(tree):
        why = text(tree, "comment, msg") or "no reason is given"
        raise SeenFault(f"the command failed: {last_line(why)}")
    if is_gnmic(tree):
        return read_gnmic(tree, lambda value: listing_of_host(value, read_text))
    if isinstance(tree, dict) and begins_of(SIGNS).isdisjoint(tree) and not leads(
            tree, OF_ANY_NAME):
        return listing_in(tree, read_text)
    tree = lowered(tree)
    rows = next((form for form in ROWS if leads(tree, form.sign)), None)
    if rows is not None:
        return listing_of_rows(tree, rows)
    if isinstance(tree, list):
        return listing_of_one(tree, read_text)
    cause = next((cause for path, cause in CAUSES if leads(tree, path)), "")
    if cause:
        raise SeenFault(f"it is {cause}")
    if leads(tree, "data resultType"):
        return read_prometheus(tree)
    form = next((form for form in FORMS if leads(tree, form.sign)), None)
    if form is not None:
        need_one(tree, form)
        return read_form(tree, form)
    return listing_in(tree, read_text) if isinstance(tree, dict) else None


def need_one(tree: dict[str, Any], form: Form) -> None:
    """Raises SeenFault if an object has several lists of ports, which may be of several hosts."""
    name, _, rest = form.ports.partition(" ")
    lists = tree.get(name)
    if rest and isinstance(lists, list) and len(lists) > 1:
        raise SeenFault(f"it has {len(lists)} lists of neighbors, as entries 1 and 2 of {name!r}: "
                        "give only one")


def listing_in(tree: dict[str, Any], read_text: ReadText) -> Optional[Listing]:
    """Returns the neighbors inside a wrapper or in NAPALM's form, else None. Raises SeenFault."""
    wrapper = next((name for name in WRAPPERS if name in tree), None)
    if wrapper is not None:
        inner = tree[wrapper]
        printed = inner[0] if isinstance(inner, list) and len(inner) == 1 else inner
        is_text = wrapper == "stdout" and isinstance(printed, str)
        return read_text(printed) if is_text else listing_of_host(inner, read_text)
    return read_form(tree, NAPALM) if is_of_napalm(tree) else None


def is_of_napalm(tree: dict[str, Any]) -> bool:
    """Returns whether an object has a list for each port: NAPALM's neighbors or, if all lists are
    empty, names with a number. An object without names is NAPALM's if nobody is heard."""
    if not all(isinstance(one, list) for one in tree.values()):
        return False
    first = next(filter(None, tree.values()), None)
    if first is None:
        return all(map(re.compile("[0-9]").search, tree))
    return leads({"": first}, NAPALM.sign) and not leads(lowered(first), ROW_SIGNS)


def listing_of_one(answers: list[Any], read_text: ReadText) -> Optional[Listing]:
    """Returns the only list of neighbors in several answers, or None. Raises SeenFault."""
    if len(answers) == 1:
        return listing_of_host(answers[0], read_text)
    found = [(place, one) for place, answer in enumerate(answers, 1)
             if answer and (one := listing_of_host(answer, read_text)) is not None]
    if len(found) > 1:
        raise SeenFault(f"it has {len(found)} lists of neighbors, as entries {found[0][0]} and "
                        f"{found[1][0]}: give only one")
    # eAPI's answer to `show hostname`
    host = next((text(one, "hostname") for one in answers if leads(one, "fqdn")), "")
    return found[0][1]._replace(source=host or found[0][1].source) if found else None


def listing_or_fault(tree: Any, read_text: ReadText) -> Listing:
    """Returns the neighbors of one host of many, or a listing with the fault of its JSON."""
    try:
        found = listing_of_host(tree, read_text)
        if found is not None and not found.hosts:
            return found
        raise unknown(tree)
    except SeenFault as fault:
        return Listing({}, True, faults=[str(fault)])


def is_failed(tree: Any) -> bool:
    """Returns whether JSON is the answer of salt or Ansible to a command that failed."""
    return isinstance(tree, dict) and (tree.get("result") is False or tree.get("failed") is True)


def lowered(tree: Any) -> Any:
    """Returns rows with the names of their columns in lower case, and anything else unchanged."""
    if isinstance(tree, list) and all(isinstance(row, dict) for row in tree):
        return [{name.lower(): value for name, value in row.items()}
                if "LOCAL_INTERFACE" in row or "LOCAL_PORT" in row else row for row in tree]
    return tree


def unknown(tree: Any) -> SeenFault:
    """Returns the fault of JSON that is not a list of neighbors, with its likely cause."""
    if tree is None or isinstance(tree, str):
        return SeenFault(f"in place of a list it has {last_line(tree)}")
    if tree == []:
        return SeenFault("it is an empty list: ntc-templates returns one if nobody is heard, or "
                         "if it cannot parse the text")
    if leads(tree, "message, msg, error, errors"):
        return SeenFault("it is an error message, not a list of neighbors")
    return SeenFault(f"it is {found_in(tree)}, not a known list of neighbors: {USE_A_LIST}")


def found_in(tree: Any) -> str:
    """Returns what JSON has, in a few words."""
    if isinstance(tree, list):
        count = f"JSON with a list of {len(tree)} {'value' if len(tree) == 1 else 'values'}"
        return f"{count}, the first of which is {found_in(tree[0])}" if tree else count
    if not isinstance(tree, dict):
        return "JSON without any object" if isinstance(tree, (bool, type(None))) else "a text"
    return f"JSON with the names {', '.join(first_of([name[:LONGEST_SHOWN] for name in tree]))}"


def last_line(words: Optional[str]) -> str:
    """Returns the last line of a text, such as that of a traceback."""
    lines = (words or "").strip().splitlines()
    return printable(clean(lines[-1][:LONGEST_SHOWN])) if lines else "nothing"
