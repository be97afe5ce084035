"""Knows how vendors name a port that is broken out, and its lanes."""
import re
from functools import lru_cache
from typing import Collection, Iterator, NamedTuple, Optional, Sequence

from .spelling import plain_port

FEW, MANY = 4, 8  # how many lanes a port has


class Scheme(NamedTuple):
    """How a vendor names ports and their lanes. In `ports` and `lanes`, which may differ in speed,
    `{}` is the number of the port, `{lane}` that of the lane, and `{sum}` the sum of both.
    `number` is an example of a port's number. The lanes are counted from `first`. A device that
    has a port whose name matches `never` is not of this vendor."""

    vendor: str
    number: str
    ports: str
    lanes: str
    first: int
    never: str = r"\Z."

    @property
    def is_beside(self) -> bool:
        """Returns whether a lane may have another port's name, and the first one its port's."""
        return "{sum}" in self.lanes or "{}/1" in self.ports

    def lanes_of(self, number: str, count: int) -> Iterator[str]:
        """Yields the names of the first lanes of a port, as `canonical` returns them."""
        front, last = re.fullmatch(r"(.*?)([0-9]+)", number).groups()  # type: ignore[union-attr]
        for lane in range(self.first, self.first + count):
            for form in self.lanes.split(", "):
                yield canonical(form.format(number, lane=lane, sum=f"{front}{int(last) + lane}"))


TWO_PARTS = r"ethernet(?:19|[2-9][0-9]|[0-9]{3,})/[0-9]+"  # no modular switch has so many slots
SCHEMES = (
    Scheme("Cumulus Linux", "{}", "swp{}", "swp{}s{lane}", 0),
    Scheme("Junos", "0/0/{}", "et-{}, xe-{}", "et-{}:{lane}, xe-{}:{lane}, ge-{}:{lane}", 0),
    Scheme("NX-OS, SONiC's standard names", "1/{}", "Ethernet{}", "Ethernet{}/{lane}", 1,
           rf"ethernet[0-9]+|{TWO_PARTS}"),
    Scheme("EOS", "{}", "Ethernet{}/1", "Ethernet{}/{lane}", 1,
           r"ethernet[0-9]+/(?:9|[0-9]{2,}|[0-9]+/[0-9]+)"),
    Scheme("EOS of modular switches", "3/{}", "Ethernet{}/1", "Ethernet{}/{lane}", 1,
           r"ethernet[0-9]+/[0-9]+(?:/(?:9|[0-9]{2,})|/[0-9]+:[0-9]+)?"),
    Scheme("OS10", "1/1/{}", "ethernet{}", "ethernet{}:{lane}", 1,
           r"ethernet(?:[3-9]|[0-9]{2,}|[0-9]+/[2-9])/.+"),
    Scheme("OS9", "1/{}", "fortyGigE {}, hundredGigE {}",
           "TenGigabitEthernet {}/{lane}, twentyFiveGigE {}/{lane}, fiftyGigE {}/{lane}", 1,
           "[a-z]+0/.+"),
    Scheme("OS9 of older switches", "0/{}", "fortyGigE {}", "TenGigabitEthernet {sum}", 0,
           "[a-z]+[1-9][0-9]*/.+"),
    Scheme("IOS-XR", "0/0/0/{}", "FortyGigE{}, HundredGigE{}, FourHundredGigE{}",
           "TenGigE{}/{lane}, TwentyFiveGigE{}/{lane}, FiftyGigE{}/{lane}, HundredGigE{}/{lane}",
           0),
    Scheme("IOS-XE", "1/0/{}", "FortyGigabitEthernet{}, HundredGigE{}",
           "TenGigabitEthernet{}/{lane}, TwentyFiveGigE{}/{lane}", 1),
    Scheme("Huawei", "1/0/{}", "40GE{}, 100GE{}, 400GE{}",
           "10GE{}:{lane}, 25GE{}:{lane}, 50GE{}:{lane}, 100GE{}:{lane}", 1),
    Scheme("H3C", "1/0/{}", "FortyGigE{}, HundredGigE{}",
           "Ten-GigabitEthernet{}:{lane}, Twenty-FiveGigE{}:{lane}", 1),
    Scheme("AOS-CX", "1/1/{}", "{}", "{}:{lane}", 1),
    Scheme("SR Linux", "1/{}", "ethernet-{}", "ethernet-{}/{lane}", 1),
    Scheme("SR OS", "1/1/c{}", "{}", "{}/{lane}", 1),
    Scheme("SONiC", "{}", "Ethernet{}", "Ethernet{sum}", 0),
    Scheme("EXOS", "{}", "{}", "{sum}", 0),
    Scheme("EXOS of stacked switches", "1:{}", "{}", "{sum}", 0),
)


@lru_cache(1 << 16)
def canonical(port: str) -> str:
    """Returns a port's name in the spelling in which the table is compared with it."""
    return plain_port(port).casefold()


# a scheme, and the expressions for its ports and for their lanes: the first group is the number
Pattern = tuple[Scheme, "Sequence[re.Pattern[str]]", "Sequence[re.Pattern[str]]"]


@lru_cache(None)
def patterns() -> Sequence[Pattern]:
    return [(scheme, compiled(scheme.ports, scheme.number), compiled(scheme.lanes, scheme.number))
            for scheme in SCHEMES]


def compiled(forms: str, number: str) -> "Sequence[re.Pattern[str]]":
    """Returns an expression for each of these forms, for numbers like the example."""
    sample, lane = number.format(77), 88
    group = "(" + re.sub("[0-9]+", "[0-9]+", sample) + ")"
    return [re.compile(re.escape(canonical(form.format(sample, lane=lane, sum=sample)))
                       .replace(sample, group).replace(f"{lane}", "[0-9]{1,2}"))
            for form in forms.split(", ")]


def number_in(expressions: "Sequence[re.Pattern[str]]", name: str) -> Optional[str]:
    """Returns the port's number if a name is as one of these expressions says, else None."""
    found = next(filter(None, (one.fullmatch(name) for one in expressions)), None)
    return None if found is None else str(found[1])


def schemes_of(port: str, others: Collection[str]) -> Sequence[tuple[Scheme, str]]:
    """Returns the schemes by which a port can be broken out, each with the port's number. `others`
    has the names of all ports of its host. All names are those that `canonical` returns."""
    return [(scheme, number) for scheme, ports, _ in patterns()
            for number in [number_in(ports, port)]
            if number is not None and not any(map(re.compile(scheme.never).fullmatch, others))]


@lru_cache(1 << 12)
def wholes_of(lane: str) -> frozenset[str]:
    """Returns the names that the port of this lane may have, as `canonical` returns them; none if
    the name is not that of a lane, or may as well be that of another port."""
    found = (
        (scheme, number_in(lanes, canonical(lane))) for scheme, _, lanes in patterns()
        if not scheme.is_beside)
    return frozenset(canonical(form.format(number)) for scheme, number in found if number
                     for form in scheme.ports.split(", "))
