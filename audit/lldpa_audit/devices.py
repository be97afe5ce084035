"""Tells the devices of a plan apart, which may have one name at two sites."""
from typing import Iterator, Optional, Sequence

from .names import End, Names, shown
from .netbox import Cable, Device
from .plan import Faults


class Devices:
    """The devices of a plan by their names. A neighbor announces a name alone, so a name that
    stands for two devices is a fault of the plan."""

    def __init__(self, names: Names, faults: Faults) -> None:
        self.key = names.whole_host
        self._faults = faults
        self._known: dict[str, tuple[Device, Optional[int]]] = {}
        self._told: set[str] = set()

    def are_clear(self, row: Sequence[str], devices: Sequence[Device], line: Optional[int]) -> bool:
        """Returns whether both hosts of a row are the only devices of their names until now. Adds a
        fault for each other name, once."""
        return all([self._is_clear(host, device, line)
                    for host, device in zip((row[0], row[2]), devices)])

    def _is_clear(self, host: str, device: Device, line: Optional[int]) -> bool:
        key = self.key(host)
        before, first = self._known.setdefault(key, (device, line))
        if before != device and key not in self._told:
            self._told.add(key)
            self._faults.add(line, f"{shown(host)} is a device of {shown(device[1])}, and in line "
                                   f"{first} one of {shown(before[1])}: select one with --site"
                             if line else f"{shown(host)} stands for the devices {before[0]} and "
                                          f"{device[0]}: ask NetBox for one site, with &site=SLUG")
        return before == device


def places_of(cable: Cable) -> Iterator[tuple[End, Device]]:
    """Yields each end of a cable whose device is known, with the device."""
    for row, devices in zip(cable.rows, cable.devices):
        yield End(*row[:2]), devices[0]
        yield End(*row[2:]), devices[1]
