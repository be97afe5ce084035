"""For tests: what tshark shows of a TLV, each value of which is read once."""

from typing import Any, Dict, List, Sequence, Tuple

Object = Dict[str, Any]


class Shown:
    """The values of a TLV by tshark's keys, which may be there several times."""

    def __init__(self, pairs: Sequence[Tuple[str, str]]) -> None:
        self.values: Dict[str, List[str]] = {}
        for key, value in pairs:
            self.values.setdefault(key, []).append(value)

    def has(self, key: str) -> bool:
        return key in self.values

    def texts(self, key: str) -> List[str]:
        return self.values.pop(key, [])

    def text(self, key: str) -> str:
        one, = self.values.pop(key)
        return one

    def numbers(self, key: str) -> List[int]:
        return [int(text, 0) for text in self.texts(key)]

    def number(self, key: str) -> int:
        return int(self.text(key), 0)

    def flag(self, key: str) -> bool:
        return flag_of(self.text(key))

    def end(self) -> None:
        """Raises KeyError if a value was not read."""
        if self.values:
            raise KeyError(", ".join(self.values))


def flag_of(text: str) -> bool:
    return {"0": False, "1": True}[text]


def tenths(shown: Shown, key: str) -> float:
    """Returns a power in watts that tshark shows in tenths of a watt."""
    return shown.number(key) / 10
