"""Reads answers of gnmic (https://gnmic.openconfig.net/cmd/get/), in which each update has a path
and what is there: all interfaces, or one of them."""
import re
from typing import Any, Callable, Iterator, Optional

from ..ages import moment_of
from .listing import Listing, SeenFault

INTERFACE = re.compile(r"(?:^|[/:])interface\[name=((?:[^\]\\]|\\.)+)\]"
                       r"(?:/(?:\w[\w-]*:)?(neighbors))?$")
COMMAND = "use `gnmic get --path /lldp/interfaces`"
ReadTree = Callable[[Any], Optional[Listing]]


def is_gnmic(tree: Any) -> bool:
    """Returns whether JSON is one answer of gnmic, or a list of them."""
    some = tree if isinstance(tree, list) else [tree]
    return bool(some) and all(isinstance(one, dict) and isinstance(one.get("updates"), list)
                              for one in some)


def read_gnmic(tree: Any, read: ReadTree) -> Listing:
    """Returns the neighbors in answers of gnmic, by host if they are of several, each as old as its
    oldest answer. Raises SeenFault. `read` reads the values."""
    answers: dict[str, list[Any]] = {}
    for one in tree if isinstance(tree, list) else [tree]:
        answers.setdefault(host_of(str(one.get("source", ""))), []).append(one)
    found = {host: listing_of(some, read)._replace(source=host, time=min(
        moment_of(str(one.get("timestamp"))) for one in some)) for host, some in answers.items()}
    return next(iter(found.values())) if len(found) == 1 else Listing({}, True, found)


def host_of(source: str) -> str:
    """Returns the host in an address such as leaf1:57400 or [2001:db8::1]:57400."""
    return re.sub(r":[0-9]+$", "", source).strip("[]")


def listing_of(answers: list[Any], read: ReadTree) -> Listing:
    """Returns the neighbors of one host. If each path is of one interface, nothing is known of the
    host's other ports."""
    values = [pair for answer in answers for pair in values_of(answer)]
    interfaces = [interface_of(path, value) for path, value in values]
    if any(interfaces):
        found = read({"interface": [one for one in interfaces if one]})
        found = found and found._replace(has_all_heard=False)
    else:
        found = read(values[0][1]) if len(values) == 1 else None
    if found is None or found.hosts or len(interfaces) != max(1, sum(map(bool, interfaces))):
        raise SeenFault(f"it is an answer of gnmic, but not to a request for neighbors: {COMMAND}")
    return found


def values_of(answer: Any) -> Iterator[tuple[str, Any]]:
    """Yields the path and the value of each update."""
    for update in answer["updates"]:
        values = update.get("values") if isinstance(update, dict) else None
        if not isinstance(values, dict) or len(values) != 1:
            raise SeenFault(f"it is an answer of gnmic whose update has no value: {COMMAND}")
        path = f"{answer.get('prefix', '')}/{update.get('Path', '')}"
        yield path, next(iter(values.values()))


def interface_of(path: str, value: Any) -> Optional[dict[str, Any]]:
    """Returns what a path and its value say of one interface, or None if they are of several."""
    found = INTERFACE.search(path)
    if found is None or not isinstance(value, dict):
        return None
    name = re.sub(r"\\(.)", r"\1", found[1])
    if found[2]:
        value = {"neighbors": {key.rpartition(":")[2]: one for key, one in value.items()}}
    return {**{key.rpartition(":")[2]: one for key, one in value.items()}, "name": name}
