"""JSON as the service reads and writes it. Numbers are read as their text, so that none is rounded."""

from __future__ import annotations

import json
from collections.abc import Iterator
from typing import Any

_decoder = json.JSONDecoder(parse_float=str, parse_int=str)
_LONGEST = 18  # digits of a number that is read as one


def _whole(text: str) -> int | str:
    return int(text) if len(text) <= _LONGEST else text


_numbers = json.JSONDecoder(parse_float=str, parse_int=_whole)
_encoder = json.JSONEncoder(separators=(",", ":"))


class NotJson(Exception):
    """The bytes are not one JSON value in UTF-8."""


def value_of(text: bytes) -> Any:
    """The one value that the bytes are. Numbers are texts; of equal keys the last counts.

    Raises NotJson.
    """
    try:
        stripped = text.decode("utf-8").strip(" \t\r\n")
        value, end = _decoder.raw_decode(stripped)
    except (ValueError, RecursionError):
        raise NotJson from None
    if end != len(stripped):
        raise NotJson
    return value


def with_numbers(text: bytes) -> dict[str, Any]:
    """The object that the bytes are, with its whole numbers as such. Raises ValueError."""
    found = _numbers.decode(text.decode("utf-8").strip(" \t\r\n"))
    if not isinstance(found, dict):
        raise ValueError("no object")
    return found


def object_of(text: bytes) -> dict[str, Any]:
    """The object that the bytes are. Raises NotJson, also for another value."""
    value = value_of(text)
    if not isinstance(value, dict):
        raise NotJson
    return value


def text_of(value: object) -> bytes:
    """The value as JSON without spaces, in ASCII."""
    return _encoder.encode(value).encode()


def member_text(text: bytes, name: str) -> bytes:
    """The text of a member of the object, with its numbers as they are written; of equal names the last.

    Raises NotJson if the bytes are no object, and KeyError if it has no such member.
    """
    try:
        found = _find_member(text.decode("utf-8"), name)
    except (ValueError, IndexError, RecursionError):
        raise NotJson from None
    if found is None:
        raise KeyError(name)
    return found.encode()


def member_texts(text: bytes) -> dict[str, bytes]:
    """The text of each member of the object, in their order; of equal names the last. Raises NotJson if the bytes are no object."""
    object_of(text)
    try:
        return {name: value.encode() for name, value in _members(text.decode("utf-8"))}
    except (ValueError, IndexError, RecursionError):
        raise NotJson from None


def object_of_texts(members: dict[str, bytes]) -> bytes:
    """The object with these members."""
    return b"{" + b",".join(text_of(name) + b":" + value for name, value in members.items()) + b"}"


def _find_member(text: str, name: str) -> str | None:
    found = None
    for key, value in _members(text):
        if key == name:
            found = value
    return found


def _members(text: str) -> Iterator[tuple[str, str]]:
    place = _past_spaces(text, text.index("{") + 1)
    while text[place] != "}":
        key, place = _decoder.raw_decode(text, place)
        begin = _past_spaces(text, _past_spaces(text, place) + 1)
        _, end = _decoder.raw_decode(text, begin)
        yield key, text[begin:end]
        place = _past_spaces(text, end)
        if text[place] == ",":
            place = _past_spaces(text, place + 1)


def _past_spaces(text: str, place: int) -> int:
    while text[place] in " \t\r\n":
        place += 1
    return place
