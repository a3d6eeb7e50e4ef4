"""The lines of a store of `clear keep`, read from its file `requests` as docs/FORMATS.md states it.

The file is text: batches of lines, each after a mark and a header with the bytes of its lines and the head after them. Each line of a
batch is after a `+` and with its newline. The first line is the record of the store.
"""

from __future__ import annotations

import hashlib
import io
import logging
import os
import re
import time
from array import array
from bisect import bisect_right
from collections.abc import Iterable, Sequence
from pathlib import Path
from typing import IO, Any, NamedTuple

from clear_service.json_text import with_numbers

AHEAD = 1 << 20
AHEAD_OF_US = 60  # seconds that a clock may have been ahead of ours
MARK = re.compile(r"([0-9]{1,15}) ([0-9]{1,12})")
HEADER_BYTES = 79
# After any mark but that of the end: a crash may leave the mark of the last batch half written, and `keep` repairs it later.
HEADER = re.compile(rb"(?!----)[\x00-\xff]{4} ([0-9]{8}) ([0-9a-f]{64})\n")
FIRST_HEAD = hashlib.sha256(b"").digest()

log = logging.getLogger("clear_service")


class StoreError(Exception):
    """The file is not that of a store, or has fewer lines than it should."""


class Header(NamedTuple):
    """What comes before the lines of a batch: how many bytes they have, and the head after them."""

    size: int
    head: bytes


class Batch(NamedTuple):
    """Where a batch begins, and the number of its first line. The record has number 0."""

    place: int
    first: int


def identity_of(status: os.stat_result) -> tuple[int, int]:
    """What the file is known by: its device and its number there."""
    return status.st_dev, status.st_ino


class StoreFile:
    """The places of the answered lines in the file. Batches are only appended, so a place stays."""

    def __init__(self, folder: str) -> None:
        self._path = Path(folder) / "requests"
        self._file: IO[bytes] | None = None
        self._places = array("Q")
        self._batch_places = array("Q")
        self._batch_firsts = array("Q")
        self._end = 0  # of the last line
        self._stop = 0  # of its batch
        self._identity: tuple[int, int] | None = None
        self.record: dict[str, Any] = {}

    @property
    def size(self) -> int:
        """The bytes of the file up to the end of the last answered line."""
        return self._end

    def __len__(self) -> int:
        return len(self._places)

    def open(self) -> None:
        """Opens the file, again if it was open, and reads its record the first time. Raises StoreError.

        A file that is opened again shows what was appended, and repaired, in the meantime. It has to be the same file.
        """
        self.check_in_place()
        before = self._file
        try:
            self._file = open(self._path, "rb", buffering=AHEAD)
            self._identity = self._identity or identity_of(os.fstat(self._file.fileno()))
            if not self.record:
                self.record = with_numbers(self._line(0)[1])
        except (OSError, ValueError) as error:
            self.close()
            raise StoreError(f"cannot read {self._path}: {error}") from None
        finally:
            if before is not None:
                before.close()
        self.check_in_place()

    def check_in_place(self) -> None:
        """Raises StoreError if the file was opened, and was deleted, replaced or shortened since then."""
        if self._file is None:
            return
        try:
            found = os.stat(self._path)
        except OSError as error:
            raise StoreError(f"the store is gone: {error}") from None
        if identity_of(found) != self._identity or not self._has_end():
            raise StoreError(f"{self._path} was replaced; start the service again")

    def _has_end(self) -> bool:
        """Whether the file still has the end of the last line that was read or answered."""
        assert self._file is not None
        return not self._end or os.pread(self._file.fileno(), 1, self._end - 1) == b"\n"

    def _to_line(self, number: int, end: int, stop: int, batches: list[Batch]) -> tuple[int, int]:
        """Where the line of this number begins and its batch ends, after a line that ends here. Adds the batches between the two."""
        assert self._file is not None
        while end == stop:
            batches.append(Batch(end, number))
            header = header_at(self._file, end, self._path)
            end += HEADER_BYTES
            stop = end + header.size
        return end, stop

    def _take(self, batches: Sequence[Batch], end: int, stop: int) -> None:
        self._batch_places.extend(each.place for each in batches)
        self._batch_firsts.extend(each.first for each in batches)
        self._end, self._stop = end, stop

    def _line(self, number: int) -> tuple[int, bytes]:
        """The next line, which has this number, and its place."""
        assert self._file is not None
        batches: list[Batch] = []
        place, stop = self._to_line(number, self._end, self._stop, batches)
        self._file.seek(place)
        line = self._file.readline()
        if line[:1] != b"+" or line[-1:] != b"\n" or place + len(line) > stop:
            raise StoreError(f"{self._path} has no line at byte {place}")
        self._take(batches, place + len(line), stop)
        return place, line[1:-1]

    def read_next(self) -> bytes:
        """The line after those whose places are known. Raises StoreError."""
        place, line = self._line(len(self._places) + 1)
        self._places.append(place)
        return line

    def passed(self, lines: Iterable[bytes]) -> int:
        """The next lines are answered, so their batches are in the file: the number of the first line, from 1. Raises StoreError."""
        first = len(self._places) + 1
        places: list[int] = []
        batches: list[Batch] = []
        end, stop = self._end, self._stop
        for number, line in enumerate(lines, first):
            place, stop = self._to_line(number, end, stop, batches)
            end = place + len(line) + 2
            if end > stop:
                raise StoreError(f"{self._path} has another line at byte {place} than was answered")
            places.append(place)
        self._take(batches, end, stop)
        self._places.extend(places)
        return first

    def line(self, number: int) -> bytes:
        """The answered line of this number. Raises StoreError."""
        if self._file is None or not 1 <= number <= len(self._places):
            raise StoreError(f"there is no line {number}")
        place = self._places[number - 1]
        end = self._places[number] if number < len(self._places) else self._end
        line, newline, _ = os.pread(self._file.fileno(), end - place, place).partition(b"\n")
        if line[:1] != b"+" or not newline:
            raise StoreError(f"{self._path} has no line at byte {place}")
        return line[1:]

    def head(self, count: int) -> bytes:
        """The head after the record and so many answered lines. Raises StoreError.

        It reads the batch of the last of them by a file of its own, so it may run in a thread beside the other methods.
        """
        nth = bisect_right(self._batch_firsts, count) - 1
        if nth < 0 or count > len(self._places):
            raise StoreError(f"there are no {count} lines")
        try:
            with open(self._path, "rb") as file:
                if identity_of(os.fstat(file.fileno())) != self._identity:
                    raise StoreError(f"{self._path} was replaced; start the service again")
                head = header_at(file, self._batch_places[nth - 1], self._path).head if nth else FIRST_HEAD
                place = self._batch_places[nth]
                header = header_at(file, place, self._path)
                text = os.pread(file.fileno(), header.size, place + HEADER_BYTES)
        except OSError as error:
            raise StoreError(f"cannot read {self._path}: {error}") from None
        asked, last = heads_in(text, head, count - self._batch_firsts[nth] + 1)
        if asked is None or len(text) != header.size or last != header.head:
            raise StoreError(f"{self._path} has another batch at byte {place} than it had")
        return asked

    def close(self) -> None:
        """Closes the file."""
        if self._file is not None:
            self._file.close()
            self._file = None


def header_at(file: IO[bytes], place: int, path: Path) -> Header:
    """The header of the batch whose mark is at this place. Raises StoreError."""
    found = HEADER.fullmatch(os.pread(file.fileno(), HEADER_BYTES, place))
    if found is None:
        raise StoreError(f"{path} has no batch at byte {place}")
    return Header(int(found[1]), bytes.fromhex(found[2].decode()))


def heads_in(text: bytes, before: bytes, count: int) -> tuple[bytes | None, bytes]:
    """The head after so many lines of a batch, if it has them, and the head after all, from the head before the batch."""
    asked, head = None, before
    for number, line in enumerate(io.BytesIO(text), 1):
        head = hashlib.sha256(head + line[1:-1]).digest()
        if number == count:
            asked = head
    return asked, head


def for_the_owner(path: str, flags: int) -> int:
    """Opens a file, which only its owner may read and write if it is made."""
    return os.open(path, flags, 0o600)


class TimeMarks:
    """When lines were answered, to a second: a file beside the store, as the house has no clock.

    A mark is a line of text: the number of the first request line that was answered in a second, a space, and the second
    since 1970. A mark that is malformed, out of order or of the future is dropped with a warning, so times may be unknown or too early
    then; nothing but the age of holds and the refusals of the last hours depend on them. A clock that jumps makes marks as it goes.
    """

    def __init__(self, folder: str) -> None:
        self._path = Path(folder) / "service-times"
        self._numbers = array("Q")
        self._seconds = array("Q")
        self._file: IO[str] | None = None

    def open(self) -> None:
        """Reads the marks, and appends to them from now on."""
        if self._file is not None:
            return
        if self._path.exists():
            self._read(self._path.read_text(encoding="ascii", errors="replace"))
        self._file = open(self._path, "a", encoding="ascii", opener=for_the_owner)

    def _read(self, text: str) -> None:
        latest = int(time.time()) + AHEAD_OF_US
        dropped = 0
        for line in text.splitlines():
            found = MARK.fullmatch(line)
            number, second = (int(part) for part in found.groups()) if found else (0, 0)
            if self._last < number and 0 < second <= latest:
                self._add(number, second)
            else:
                dropped += 1
        if dropped:
            log.warning("%s: %d malformed times, or times of the future, are dropped", self._path, dropped)
        if text and not text.endswith("\n"):
            with open(self._path, "a", encoding="ascii") as file:
                file.write("\n")

    @property
    def _last(self) -> int:
        return self._numbers[-1] if self._numbers else 0

    def _add(self, number: int, second: int) -> None:
        self._numbers.append(number)
        self._seconds.append(second)

    def mark(self, number: int) -> float:
        """The line of this number is answered now; returns the time."""
        now = time.time()
        is_new = not self._seconds or int(now) != self._seconds[-1]
        if self._file is not None and is_new and number > self._last and now > 0:
            self._add(number, int(now))
            self._file.write(f"{number} {int(now)}\n")
            self._file.flush()
        return now

    def of(self, number: int) -> float | None:
        """When the line was answered; None if that is not known."""
        place = bisect_right(self._numbers, number)
        return float(self._seconds[place - 1]) if place else None

    def close(self) -> None:
        """Closes the file."""
        if self._file is not None:
            self._file.close()
            self._file = None
