"""Where a line stops being JSON, by docs/FORMATS.md alone: before the first character that no JSON text can have there.

Whether a JSON text begins with some characters is found by completing them: by each way in which a value can end, and the brackets that
close what is open. So nothing here follows the grammar one character after another.
"""
from __future__ import annotations

import json
import re

from causes import Row, row
from rules import Json

DEEPEST = 127
CLOSERS = {"{": "}", "[": "]"}
LOW = "\\udc00"
# What can follow inside a string, and anywhere else; each may be the end of a name.
STRING_ENDS = [
    "",
    "n",
    *("0000"[:i] for i in range(1, 5)),
    "00" + LOW,
    "0" + LOW,
    *(LOW[i:] for i in range(4)),
]
OTHER_ENDS = ["", "0", '"":0', ":0", "rue", "ue", "e", "alse", "lse", "se", "ull", "ll", "l"]


class Members(list[tuple[str, Json]]):
    """The members of an object, each a name and a value."""


def refuse(constant: str) -> Json:
    """Python reads NaN and Infinity, which are no JSON."""
    raise ValueError(constant)


def is_as_read(value: Json, depth: int = 0) -> bool:
    """The value has no half of a surrogate pair, and at most 127 levels."""
    if type(value) is str:
        return not any(0xD800 <= ord(letter) <= 0xDFFF for letter in value)
    if type(value) is Members:
        names = all(is_as_read(name) for name, _ in value)
        return depth < DEEPEST and names and all(is_as_read(inner, depth + 1) for _, inner in value)
    return type(value) is not list or depth < DEEPEST and all(is_as_read(it, depth + 1) for it in value)


def is_json(text: str) -> bool:
    try:
        value = json.loads(
            text, object_pairs_hook=Members, parse_int=float, parse_float=float, parse_constant=refuse
        )
    except (ValueError, RecursionError):
        return False
    return is_as_read(value)


def begins_json(text: str) -> bool:
    """Whether some JSON text begins with this one."""
    outside = re.sub(r'"(?:[^"\\]|\\.)*"', "", text, flags=re.DOTALL)
    bare, in_string, _ = outside.partition('"')
    open_: list[str] = []
    for mark in re.findall(r"[\[\]{}]", bare):
        if mark in CLOSERS:
            open_.append(mark)
        elif open_:
            open_.pop()
    closers = "".join(CLOSERS[mark] for mark in reversed(open_))
    ends = [f'{end}"{name}' for end in STRING_ENDS for name in ("", ":0")] if in_string else OTHER_ENDS
    return any(is_json(text + end + closers) for end in ends)


def stop_of(text: str) -> int:
    """How many characters of the text begin a JSON text. Fewer do too, so half of what is left is tried each time."""
    least, most = 0, len(text)
    while least < most:
        tried = (least + most + 1) // 2
        if begins_json(text[:tried]):
            least = tried
        else:
            most = tried - 1
    return least


def syntax_row(line: bytes) -> Row:
    """The row of a line that is refused as Syntax."""
    try:
        return row(f"column {stop_of(line.decode()) + 1}", "no JSON")
    except UnicodeDecodeError as error:
        return row(f"column {len(line[:error.start].decode()) + 1}", "no UTF-8")
