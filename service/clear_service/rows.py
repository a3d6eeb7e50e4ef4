"""Lists as JSON or CSV that are written while they are made, so that a long one keeps nobody else waiting."""

from __future__ import annotations

import asyncio
import csv
import io
import re
from collections.abc import AsyncIterator, Iterable, Iterator, Sequence
from contextlib import asynccontextmanager
from itertools import islice

from starlette.responses import Response
from starlette.types import Receive, Scope, Send

from clear_service.json_text import text_of

JSON = "application/json"
CSV = "text/csv"
AT_ONCE = 100  # rows that are made before others have their turn
LISTS_AT_ONCE = 2  # of a token
NUMBER = re.compile(r"-?[0-9]+(\.[0-9]+)?")
FORMULA = ("=", "+", "-", "@", "\t", "\r")


class Reads:
    """At most so many lists and prices are made at once for each token; the others of the token wait."""

    def __init__(self) -> None:
        self._turns: dict[str, asyncio.Semaphore] = {}

    @asynccontextmanager
    async def turn(self, token: str) -> AsyncIterator[None]:
        """Waits for a turn of the token."""
        async with self._turns.setdefault(token, asyncio.Semaphore(LISTS_AT_ONCE)):
            yield


class Rows(Response):
    """A response of many rows. A row that is None is left out: it only counts as work."""

    def __init__(self, turn: tuple[Reads, str], pieces: Iterator[bytes], media_type: str) -> None:
        super().__init__(media_type=media_type)
        del self.headers["content-length"]
        self._reads, self._token = turn
        self._pieces = pieces

    async def __call__(self, scope: Scope, receive: Receive, send: Send) -> None:
        """Writes the response in the token's turn."""
        async with self._reads.turn(self._token):
            start = {"type": "http.response.start", "status": self.status_code, "headers": self.raw_headers}
            await send(start)
            for piece in self._pieces:
                if piece:
                    await send({"type": "http.response.body", "body": piece, "more_body": True})
                await asyncio.sleep(0)
            await send({"type": "http.response.body", "body": b""})


def json_pieces(rows: Iterable[object | None], head: bytes = b"[", tail: bytes = b"]\n") -> Iterator[bytes]:
    """The rows as the items of a JSON list, after the head and before the tail."""
    yield head
    source, comma = iter(rows), b""
    while some := list(islice(source, AT_ONCE)):
        text = b",".join([text_of(row) for row in some if row is not None])
        yield comma + text if text else b""
        comma = b"," if text else comma
    yield tail


def csv_pieces(columns: Sequence[str], rows: Iterable[Iterable[object] | None]) -> Iterator[bytes]:
    """The rows as CSV by RFC 4180, each record with one newline, without cells that a spreadsheet would run."""
    source = iter(rows)
    yield _csv([columns])
    while some := list(islice(source, AT_ONCE)):
        yield _csv([[safe_cell(str(cell)) for cell in row] for row in some if row is not None])


def safe_cell(text: str) -> str:
    """The cell; after an apostrophe if it begins as a formula and is no number."""
    return f"'{text}" if text.startswith(FORMULA) and not NUMBER.fullmatch(text) else text


def _csv(rows: Iterable[Iterable[object]]) -> bytes:
    out = io.StringIO()
    csv.writer(out, lineterminator="\n").writerows(rows)
    return out.getvalue().encode()
