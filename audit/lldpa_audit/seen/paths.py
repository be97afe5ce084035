"""Follows paths through JSON, from names to texts.

A path has names from object to object, through each element of a list. `*` matches each
name of an object, and `@` yields the name that the last `*` matched. `?NAME` goes on only if NAME
is true in the object. Commas separate paths. If one text is needed, the first one found counts.
"""
from functools import lru_cache
from typing import Any, Callable, Iterator

# what vendors print for a field that a neighbor does not send
ABSENT = frozenset(("", "N/A", "null", "not advertised", "- not advertised"))

Steps = tuple[str, ...]


@lru_cache(None)
def paths_in(paths: str) -> tuple[Steps, ...]:
    """Returns the steps of each of several paths. An empty path leads to the node itself."""
    return tuple([tuple(path.split()) for path in paths.split(", ")])


def walk(node: Any, steps: Steps) -> list[tuple[str, Any]]:
    """Returns what a path leads to, each time with the name that the last `*` matched."""
    found = [("", node)]
    for step in steps:
        before, found = found, []
        for name, one in before:
            if step == "@":
                found.append((name, name))
                continue
            for part in one if type(one) is list else (one,):
                if type(part) is not dict:
                    continue
                if step == "*":
                    found += part.items()
                elif step[0] == "?" and part.get(step[1:]) is True:
                    found.append((name, part))
                elif part.get(step) is not None:
                    found.append((name, part[step]))
    return found


def found_by(node: Any, paths: str) -> Iterator[tuple[str, Any]]:
    """Yields what each of several paths leads to."""
    for path in paths_in(paths):
        yield from walk(node, path)


@lru_cache(None)
def begins_of(paths: str) -> frozenset[str]:
    """Returns the first step of each of several paths."""
    return frozenset([path[0] for path in paths_in(paths)])


def leads(node: Any, paths: str) -> bool:
    """Returns whether one of several paths leads somewhere."""
    for path in paths_in(paths):
        # the first condition is quicker than walk
        if (type(node) is not dict or path[0] in node or path[0] == "*") and walk(node, path):
            return True
    return False


def texts(node: Any, paths: str) -> Iterator[str]:
    """Yields the texts to which paths lead, also inside the objects that Junos and lldpcli use."""
    for _, found in found_by(node, paths) if paths else ():
        for leaf in found if isinstance(found, list) else [found]:
            if isinstance(leaf, dict):
                leaf = next((leaf[key] for key in ("value", "data") if key in leaf), "")
            if isinstance(leaf, str) and leaf not in ABSENT:
                yield leaf


def text(node: Any, paths: str) -> str:
    """Returns the first text to which paths lead, or an empty one."""
    return next(texts(node, paths), "")


@lru_cache(None)
def reader_of(paths: str) -> Callable[[dict[str, Any]], str]:
    """Returns a function that does what `text` does, for one set of paths. It is quick if each path
    is one name, since a large network has millions of such fields."""
    names = [path[0] for path in paths_in(paths) if len(path) == 1 and path[0][0] not in "*@?"]
    if not paths or len(names) < len(paths_in(paths)):
        return lambda node: text(node, paths)

    def read(node: dict[str, Any]) -> str:
        for name in names:
            found = node.get(name)
            if found is not None:
                value: str = found if type(found) is str else text(node, name)
                if value not in ABSENT:
                    return value
        return ""

    return read
