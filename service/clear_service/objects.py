"""The objects of OCPI that the house has taken, by the numbers of their lines: tokens, tariffs, and the order of all of them.

Texts of objects stay in the store; an entry has what a list selects by.
"""

from __future__ import annotations

from array import array
from bisect import bisect_right
from collections.abc import Iterator
from dataclasses import dataclass
from enum import IntEnum

AT_ONCE = 1000


@dataclass(slots=True)
class Entry:
    """A token or a tariff: the number of its line, its owner as configured, and its `last_updated` as an instant."""

    number: int
    owner: str
    updated: str


class Kind(IntEnum):
    """What an object is."""

    TOKEN = 0
    TARIFF = 1
    CDR = 2


class Objects:
    """All objects in the order of their lines: for each the line, the kind, and the folded provider of a CDR or owner of another one.

    An object takes some bytes, so that it can be found again what a peer was not sent yet.
    """

    def __init__(self) -> None:
        self._numbers = array("Q")
        self._about = array("I")
        self._parties: list[str] = []
        self._places: dict[str, int] = {}

    def __len__(self) -> int:
        return len(self._numbers)

    def add(self, number: int, kind: Kind, party: str) -> None:
        """Adds the object of the next line that has one."""
        place = self._places.get(party)
        if place is None:
            place = self._places[party] = len(self._parties)
            self._parties.append(party)
        self._numbers.append(number)
        self._about.append(place * len(Kind) + kind)

    def place_after(self, number: int) -> int:
        """The place of the first object after the line of this number."""
        return bisect_right(self._numbers, number)

    def some(self, place: int) -> Iterator[tuple[int, Kind, str]]:
        """Some of the objects from this place on: the line, the kind and the party of each."""
        for nth in range(place, min(place + AT_ONCE, len(self._numbers))):
            party, kind = divmod(self._about[nth], len(Kind))
            yield self._numbers[nth], Kind(kind), self._parties[party]
