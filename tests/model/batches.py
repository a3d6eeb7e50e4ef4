"""The format of a log of batches, on its own: the file of batches, and what a file is found to be."""

from __future__ import annotations

import hashlib
from collections.abc import Iterable, Sequence
from dataclasses import dataclass, field

OPEN, SHUT = b"kept", b"----"
HEADER = 75
MOST_BYTES = 1 << 24


def digest(text: bytes) -> bytes:
    return hashlib.sha256(text).digest()


FIRST_HEAD = digest(b"")


def head_after(head: bytes, lines: Iterable[bytes]) -> bytes:
    """The head after these lines, from the head before them."""
    for line in lines:
        head = digest(head + line)
    return head


def head_of(lines: Iterable[bytes]) -> str:
    """The head after these lines and no others, in hex."""
    return head_after(FIRST_HEAD, lines).hex()


def marked(lines: Iterable[bytes]) -> bytes:
    """Each line after its `+`, and with its newline."""
    return b"".join(b"+" + line + b"\n" for line in lines)


def record(head: bytes, batch: Sequence[bytes]) -> bytes:
    """What comes after the mark of a batch, after lines of this head."""
    text = marked(batch)
    return b" %08d %s\n" % (len(text), head_after(head, batch).hex().encode()) + text


def records(batches: Iterable[Sequence[bytes]]) -> list[bytes]:
    """These batches as they are in a file, each with its mark."""
    made, head = [], FIRST_HEAD
    for batch in batches:
        made.append(OPEN + record(head, batch))
        head = head_after(head, batch)
    return made


def file_of(batches: Iterable[Sequence[bytes]]) -> bytes:
    """The whole file of these batches."""
    return b"".join(records(batches)) + SHUT


def lines_in(text: bytes) -> list[bytes]:
    """The lines at the front of a text."""
    lines: list[bytes] = []
    at = 0
    while text[at : at + 1] == b"+":
        end = text.find(b"\n", at)
        if end < 0:
            return lines
        lines.append(text[at + 1 : end])
        at = end + 1
    return lines


@dataclass(frozen=True)
class Verdict:
    """The lines that can be read, and the byte where the file is damaged, if it is."""

    lines: list[bytes]
    damage: int | None = None
    # The batches that these lines are in, where the mark after them is, and what comes after that mark and counts for nothing.
    batches: list[list[bytes]] = field(default_factory=list, compare=False)
    end: int = field(default=0, compare=False)
    torn: bytes = field(default=b"", compare=False)


def batch_in(head: bytes, text: bytes) -> list[bytes] | None:
    """The batch with which a text after a mark begins, after lines of this head."""
    number = text[1:9]
    size = int(number) if len(number) == 8 and number.isdigit() else 0
    batch = lines_in(text[HEADER : HEADER + size])
    begins = text.startswith(record(head, batch)) and len(marked(batch)) <= MOST_BYTES
    return batch if begins else None


def verdict(file: bytes) -> Verdict:
    """What a file is found to be."""
    if len(file) <= len(SHUT):
        return Verdict([])
    lines: list[bytes] = []
    found: list[list[bytes]] = []
    place, head = 0, FIRST_HEAD
    while True:
        mark, text = file[place : place + 4], file[place + 4 : place + 4 + HEADER + MOST_BYTES]
        if mark == SHUT:
            torn = file[place + 4 :]
            is_short = len(torn) <= HEADER + 4 + MOST_BYTES
            return Verdict(lines, None if is_short else place, found, place, torn)
        batch = batch_in(head, text)
        if batch is None:
            return Verdict(lines, place, found, place)
        after = place + 4 + HEADER + len(marked(batch))
        if mark != OPEN:
            is_last = file[after:] == SHUT
            kept = lines + batch if is_last else lines
            return Verdict(kept, None if is_last else place, [*found, batch] if is_last else found, after)
        lines, head, place, found = lines + batch, head_after(head, batch), after, [*found, batch]
