"""Finds whether names differ only in case, domain, spelling, or in letters of other alphabets."""
import unicodedata
from itertools import product
from typing import Optional

from .names import End, Names, Seen

DIFFERENCES = (("case",), ("domain",), ("case", "domain"), ("spelling",), ("case", "spelling"),
               ("domain", "spelling"), ("case", "domain", "spelling"))


class Differences:
    """Looks for the smallest difference that explains why two names do not match."""

    def __init__(self, names: Names) -> None:
        self._names = names
        self._looser = [(differences, names.looser(*differences)) for differences in DIFFERENCES]

    def of_neighbor(self, neighbor: Seen, end: End) -> Optional[str]:
        """Returns why a neighbor does not match an end; None if it matches or is another port."""
        if self._names.answers(neighbor, self._names.end(end)):
            return None
        for differences, rule in self._looser:
            key = rule.end(end)
            if rule.answers(neighbor, key):
                is_so = self._names.vendor_names or key in rule.ends(neighbor)
                return words_of(differences) if is_so else "the neighbor announces its aggregate"
        return self._look_alike(neighbor, end)

    def _look_alike(self, neighbor: Seen, end: End) -> Optional[str]:
        """Returns which letters of a neighbor's names differ from an end's, if they are not ASCII
        and all others are equal: a letter of another alphabet may look alike."""
        host, port = self._names.whole_host(end.host), self._names.plain_port(end.port)
        for its_host, its_port in product(neighbor.hosts, neighbor.ports):
            pairs = [(self._names.whole_host(its_host), host),
                     (self._names.plain_port(its_port), port)]
            letters = [letters_of(one, other) for one, other in pairs]
            if any(letters) and all(found or one == other
                                    for found, (one, other) in zip(letters, pairs)):
                return ", ".join(f"{letter} is {unicodedata.name(letter, 'without a name')}"
                                 for letter in dict.fromkeys("".join(letters)))
        return None

    def of_ends(self, one: End, other: End) -> Optional[str]:
        """Returns how two ends differ, or None if more than case, domain and spelling differs."""
        for differences, rule in self._looser:
            if rule.end(one) == rule.end(other):
                return words_of(differences)
        return None

    def loosest(self, end: End) -> End:
        """Returns an end, normalized so that case, domain and spelling do not count."""
        return self._looser[-1][1].end(end)


def letters_of(one: str, other: str) -> str:
    """Returns the letters that differ in two names, except those in ASCII. Returns an empty text if
    the names are equal, or differ in length or in letters that are in ASCII both."""
    if one.isascii() and other.isascii() or len(one) != len(other):
        return ""
    pairs = [pair for pair in zip(one, other) if pair[0] != pair[1]]
    return "".join(letter for pair in pairs for letter in pair if not letter.isascii()
                   ) if not any("".join(pair).isascii() for pair in pairs) else ""


OPTIONS = {"case": "--ignore-case", "domain": "--short-names", "spelling": "--vendor-names"}


def with_options(text: str) -> str:
    """Returns a text that ends with what `words_of` returns, and the options that ignore it."""
    words = text.rpartition(": ")[2].split()
    options = [option for word, option in OPTIONS.items() if {word, f"{word},"} & {*words}]
    return f"{text}: see {', '.join(options)}" if options else text


def words_of(differences: tuple[str, ...]) -> str:
    if len(differences) == 1:
        return f"only the {differences[0]} differs"
    return f"only {', '.join(differences[:-1])} and {differences[-1]} differ"
