"""Request lines: those that the service makes, and those that a sender gives in bulk.

The platform of a line is always that of the sender's token.
"""

from __future__ import annotations

import re
from collections.abc import Iterator, Sequence

from clear_service.json_text import NotJson, object_of, text_of
from clear_service.settings import LONGEST_LINE


PIECE = 1 << 17  # bytes of a body that are read together
RELEASED_BY = "released_by"  # the member of a line by which the service releases a hold for a hub; no sender may write it
COMMAND = re.compile(rb'"do"\s*:\s*"([a-z_]{1,20})"')
COMMANDS = {
    name.encode(): name
    for name in "put_tariff put_token authorize release post close settle exposure find statement configure".split()
}

# What begins a small letter from a to z that is written as an escape of JSON.
ESCAPED = (b"\\u005", b"\\u006", b"\\u007")

# What a line that changes the configuration has somewhere: the command's name, plain or with one of its letters as an escape.
LONG = (b"configure", *ESCAPED)


class LineError(Exception):
    """A line that the service does not send to the house."""

    def __init__(self, status: int, message: str) -> None:
        super().__init__(message)
        self.status = status
        self.message = message


def command_of(line: bytes) -> str:
    """The command of the line for a figure, by the first text that looks as its member `do`; `other` if it is no command."""
    found = COMMAND.search(line)
    return COMMANDS.get(found[1], "other") if found else "other"


def may_take_long(line: bytes) -> bool:
    """Whether the line may change the configuration, which takes the house as long as all its lines did."""
    if not any(part in line for part in LONG):
        return False
    try:
        return object_of(line).get("do") == "configure"
    except NotJson:
        return False


def in_one_line(body: bytes) -> bytes:
    """The JSON value on one line. In JSON, a newline can only be white space between tokens."""
    return body.strip(b" \t\r\n").replace(b"\n", b" ")


def request_line(
    platform: str, do: str, members: Sequence[tuple[str, bytes]], request_id: str | None = None
) -> bytes:
    """A request line of the platform with these members, whose values are JSON.

    Raises LineError if it is longer than a line may be.
    """
    parts = [b'{"platform":', text_of(platform)]
    if request_id is not None:
        parts += [b',"request_id":', text_of(request_id)]
    parts += [b',"do":', text_of(do)]
    for name, value in members:
        parts += [b",", text_of(name), b":", value]
    line = b"".join(parts) + b"}"
    if len(line) > LONGEST_LINE:
        raise LineError(413, f"the line is longer than {LONGEST_LINE} bytes")
    return line


def folded(text: str) -> str:
    """The text for comparisons that ignore the case of ASCII letters."""
    return text.lower() if text.isascii() else "".join(c.lower() if c.isascii() else c for c in text)


class BulkLines:
    """The lines of a body, each checked to be of one platform."""

    def __init__(self, platform: str) -> None:
        self._platform = platform
        self._folded = folded(platform)
        self._name = b'"platform":' + text_of(platform)
        self._beginning = b"{" + self._name + b","

    def read(self, body: bytes, most: int) -> list[bytes]:
        """The lines of the body, at most `most`. Raises LineError as `pieces` does."""
        return [line for lines in self.pieces(body, most) for line in lines]

    def pieces(self, body: bytes, most: int) -> Iterator[list[bytes]]:
        """The lines of the body, at most `most`, some at a time. A line without a platform gets the sender's.

        Raises LineError for the first line that is too long, is no JSON object, or names another platform.
        """
        if body.count(b"\n") + (body[-1:] not in (b"", b"\n")) > most:
            raise LineError(413, f"more than {most} lines")
        place, number = 0, 1
        while place < len(body):
            end = body.find(b"\n", place + PIECE) + 1 or len(body)
            piece = body[place:end]
            lines = piece.split(b"\n")
            if not lines[-1]:
                lines.pop()
            yield lines if self._are_plainly_ours(piece, lines) else list(self._checked(lines, number))
            place, number = end, number + len(lines)

    def _are_plainly_ours(self, body: bytes, lines: list[bytes]) -> bool:
        """Whether each line is plainly ours and no line too long, by a few looks at all of them."""
        begin = all([line.startswith(self._beginning) for line in lines])
        return begin and self._are_named(body, len(lines)) and max(map(len, lines), default=0) <= LONGEST_LINE

    def _checked(self, lines: list[bytes], first: int) -> Iterator[bytes]:
        for number, line in enumerate(lines, first):
            if len(line) <= LONGEST_LINE and not self._is_plainly_ours(line):
                line = self._ours(number, line)
            if len(line) > LONGEST_LINE:
                raise LineError(413, f"line {number} is longer than {LONGEST_LINE} bytes")
            yield line

    def _is_plainly_ours(self, line: bytes) -> bool:
        """Whether the line begins with the sender's platform and has no other member of that name, without reading it as JSON."""
        return line.startswith(self._beginning) and self._are_named(line, 1)

    def _are_named(self, text: bytes, count: int) -> bool:
        """Whether so many members of the text are named `platform` and none `released_by`.

        With an escape, such a name has one for a small letter, or for its underscore.
        """
        if RELEASED_BY.encode() in text or any(part in text for part in ESCAPED):
            return False
        return text.count(b'"platform"') == count

    def _ours(self, number: int, line: bytes) -> bytes:
        try:
            members = object_of(line)
        except NotJson:
            raise LineError(400, f"line {number} is no JSON object") from None
        if RELEASED_BY in members:
            raise LineError(403, f"line {number} has the member {RELEASED_BY}, which only the service writes")
        if "platform" not in members:
            return self._with_platform(line, bool(members))
        named = members["platform"]
        if not isinstance(named, str) or folded(named) != self._folded:
            raise LineError(403, f"line {number} names another platform than that of the token")
        return line

    def _with_platform(self, line: bytes, has_members: bool) -> bytes:
        rest = line.lstrip(b" \t\r")[1:]
        return b"{" + self._name + (b"," if has_members else b"") + rest
