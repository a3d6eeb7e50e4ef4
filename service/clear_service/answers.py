"""Answer lines of the house, and the status that HTTP and OCPI give to each refusal."""

from __future__ import annotations

from dataclasses import dataclass
from functools import cached_property
from typing import Any

from clear_service.json_text import object_of

BEGINNING = b'{"status_code":1000,"answer":"'

# The last member of the answer that `clear keep --causes` and `clear stream --causes` write of a refusal 1 to 12. These bytes are in no
# other answer: a quote inside a string has a backslash before it.
CAUSE = b',"cause":{'


@dataclass(frozen=True)
class RefusalStatus:
    """A refusal by its number and name, the HTTP status under /ocpi and under /clearing, and OCPI's status code."""

    number: int
    name: str
    ocpi_http: int
    clearing_http: int
    status_code: int


# OCPI 2.2.1, chapter Status codes: text that is not JSON is 400, what is not there is 404, and any other refusal of the
# OCPI layer comes with HTTP status 200. Under /clearing the statuses are those of RFC 9110.
REFUSALS = tuple(
    RefusalStatus(*row)
    for row in (
        (1, "Syntax", 400, 400, 2001),
        (2, "Field", 200, 400, 2001),
        (3, "UnknownParty", 200, 404, 2000),
        (4, "NotYours", 404, 403, 2000),
        (5, "WrongCurrency", 200, 422, 2000),
        (6, "BadDates", 200, 422, 2000),
        (7, "TariffNotGiven", 200, 422, 2000),
        (8, "UnsupportedRestriction", 200, 422, 2000),
        (9, "Reservation", 200, 422, 2000),
        (10, "EnergyMismatch", 200, 422, 2000),
        (11, "AmountTooLarge", 200, 422, 2000),
        (12, "CostMismatch", 200, 422, 2000),
        (13, "Conflict", 200, 409, 2000),
        (14, "TariffNotRegistered", 200, 422, 2000),
        (15, "UnknownToken", 404, 404, 2004),
        (16, "UnknownHold", 404, 404, 2000),
        (17, "UnknownOriginal", 200, 422, 2000),
        (18, "CreditOfCredit", 200, 409, 2000),
        (19, "AlreadyCredited", 200, 409, 2000),
        (20, "CreditDiffers", 200, 409, 2000),
        (21, "NotCurrent", 200, 409, 2000),
        (22, "PeriodOpen", 200, 409, 2000),
        (23, "AlreadySettled", 200, 409, 2000),
        (24, "UnknownCdr", 404, 404, 2000),
        (25, "Full", 200, 507, 3000),
        (26, "OverLimit", 200, 409, 2000),
        (28, "TooLate", 200, 409, 2000),
        (29, "ComesOutOtherwise", 200, 409, 2000),
        (30, "RequestIdUsed", 200, 409, 2000),
    )
)
BY_NUMBER = {row.number: row for row in REFUSALS}


def without_cause(line: bytes) -> bytes:
    """The answer line as docs/FORMATS.md has it, without the cause of a refusal."""
    place = line.find(CAUSE)
    return line if place < 0 else line[:place] + b"}"


def name_of(line: bytes) -> str:
    """The name of the answer or the refusal on the line."""
    return line.split(b'"', NAME + 1)[NAME].decode()


# The first members of an answer line, by their places between its quotes: docs/FORMATS.md states these bytes. TEXT is the member after
# `at` if that is a text, an amount or a reference, and PERIOD the number after it. A number has a colon before it and a mark after it.
NAME, AT, TEXT, PERIOD = 5, 8, 11, 14


def parts_of(line: bytes) -> list[bytes]:
    """The answer line, cut at its quotes as far as the members above go."""
    return line.split(b'"', PERIOD + 1)


def number_of(part: bytes) -> int:
    """The number in such a part."""
    return int(part[1:-1])


@dataclass(frozen=True)
class Answer:
    """An answer line without its newline; that of a refusal may have a cause."""

    line: bytes

    @property
    def is_refusal(self) -> bool:
        """Whether the request was refused."""
        return not self.line.startswith(BEGINNING)

    @property
    def name(self) -> str:
        """The name of the answer or the refusal."""
        return name_of(self.line)

    @property
    def at(self) -> int:
        """The number of events before the answer, which is no refusal."""
        return number_of(parts_of(self.line)[AT])

    @cached_property
    def members(self) -> dict[str, Any]:
        """The members of the answer; numbers are texts."""
        return object_of(self.line)

    @property
    def refusal(self) -> RefusalStatus:
        """The row of the refusal; the answer has to be one."""
        return BY_NUMBER[int(self.members["number"])]

    @property
    def clearing_status(self) -> int:
        """The HTTP status of the answer under /clearing."""
        return self.refusal.clearing_http if self.is_refusal else 200

    @property
    def plain(self) -> bytes:
        """The answer line without a cause."""
        return without_cause(self.line)

    @property
    def message(self) -> str:
        """The refusal's name with its own values and its cause.

        As `OverLimit: exposure 30.2500, limit 30.0000`, or
        `Field: token.valid: of a wrong kind or out of bounds, found null, expected true or false`.
        """
        cause = self.members.get("cause", {})
        own = [name for name in self.members if name not in PLAIN and (name != "field" or not cause)]
        parts = [", ".join(f"{name} {self.members[name]}" for name in own), cause_text(cause)]
        said = "; ".join(part for part in parts if part)
        return f"{self.name}: {said}" if said else self.name


PLAIN = ("status_code", "refusal", "number", "at", "cause")


def cause_text(cause: dict[str, str]) -> str:
    """The cause of a refusal: the member, what is wrong with it, what it has, and what it is compared with.

    A column is one of the line that the service has made, so it is left out.
    """
    place = cause.get("place", "")
    head = ("" if not place or place.startswith("column ") else f"{place}: ") + cause.get("cause", "")
    values = [
        f"{text} {cause[name]}"
        for name, text in (("found", "found"), ("against", "expected"))
        if name in cause
    ]
    return ", ".join([head, *values])
