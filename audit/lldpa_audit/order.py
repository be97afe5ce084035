"""Sorts by host and port, with the numbers in names compared as numbers."""
import re
from functools import lru_cache
from typing import Iterable, Iterator, Protocol, TypeVar, Union

from .names import End
from .seen.neighbor import MOST_KEPT


class AtEnd(Protocol):
    """A finding, a repair, or anything else that is about an end."""

    @property
    def end(self) -> End: ...


Item = TypeVar("Item", bound=AtEnd)
# texts and numbers in turn; a number is compared by its count of digits, then by its digits
Key = tuple[Union[str, tuple[int, str]], ...]


def in_order(items: Iterable[Item]) -> Iterator[Item]:
    """Yields findings or repairs, sorted by host and port: swp2 before swp10."""
    hosts: dict[Key, list[Item]] = {}
    for item in items:
        hosts.setdefault(natural(item.end.host), []).append(item)
    for host in sorted(hosts):
        yield from sorted(hosts.pop(host), key=lambda item: by_port(item.end))


@lru_cache(MOST_KEPT)
def natural(name: str) -> Key:
    """Returns the sort key of a name."""
    return tuple([number(part) if at % 2 else part
                  for at, part in enumerate(re.split("([0-9]+)", name))])


def number(digits: str) -> tuple[int, str]:
    """Returns the sort key of a number of any length."""
    digits = digits.lstrip("0")
    return len(digits), digits


def by_port(end: End) -> Key:
    return natural(end.port)


def in_turn(end: End) -> tuple[Key, Key, End]:
    """Returns the sort key of an end."""
    return natural(end.host), natural(end.port), end
