"""Lists of OCPI 2.2.1 in pages: `date_from`, `date_to`, `offset` and `limit`, and the headers Link, X-Total-Count and X-Limit.

A page has at most `MOST` objects, and fewer if they are long; Link then leads to the next one.
"""

from __future__ import annotations

import asyncio
import re
from collections.abc import Awaitable, Callable, Iterable
from dataclasses import dataclass
from typing import Any, TypeVar
from urllib.parse import urlencode

from fastapi import Query, Request
from starlette.responses import Response

from clear_service.moments import instant
from clear_service.responses import Problem, house_of, sender_of, success

MOST = 100  # objects of a page
MOST_BYTES = 1 << 21  # of a page, after which no further object is added
AT_ONCE = 500  # entries that are looked at before others have their turn
MOMENT = re.compile(r"\d{4}-\d\d-\d\dT\d\d:\d\d:\d\d(\.\d{1,9})?(Z|\+00:00)?", re.ASCII)
T = TypeVar("T")


@dataclass(frozen=True)
class Paging:
    """The parameters of a list. The moments are instants."""

    date_from: str | None
    date_to: str | None
    offset: int
    limit: int

    def takes(self, updated: str) -> bool:
        """Whether the list has objects that were updated at this instant: `date_from` is inclusive, `date_to` is not."""
        return (self.date_from is None or self.date_from <= updated) and (
            self.date_to is None or updated < self.date_to
        )


async def paging(
    date_from: str | None = None,
    date_to: str | None = None,
    offset: int = Query(0, ge=0, le=10**12),
    limit: int = Query(MOST, ge=1, le=10**12),
) -> Paging:
    """The parameters. Raises Problem."""
    return Paging(moment("date_from", date_from), moment("date_to", date_to), offset, min(limit, MOST))


def moment(name: str, text: str | None) -> str | None:
    """The instant of a parameter. Raises Problem."""
    if text is None:
        return None
    # A plus sign in a query is a space if it is not written as %2B.
    text = text.replace(" 00:00", "+00:00")
    if not MOMENT.fullmatch(text):
        raise Problem(400, f"Field: {name} is no moment in UTC as 2024-07-01T10:00:00Z")
    return instant(text)


async def page(
    request: Request,
    url: str,
    asked: Paging,
    entries: Iterable[T],
    updated: Callable[[T], str],
    text: Callable[[T], Awaitable[bytes]],
) -> Response:
    """The page of the entries, in their order, with the texts of those that are on it."""
    async with house_of(request).reads.turn(sender_of(request).digest):
        chosen: list[T] = []
        total = 0
        for nth, entry in enumerate(entries):
            if asked.takes(updated(entry)):
                if asked.offset <= total < asked.offset + asked.limit:
                    chosen.append(entry)
                total += 1
            if nth % AT_ONCE == AT_ONCE - 1:
                await asyncio.sleep(0)
        texts: list[bytes] = []
        size = 0
        for entry in chosen:
            texts.append(await text(entry))
            size += len(texts[-1])
            await asyncio.sleep(0)
            if size > MOST_BYTES:
                break
    headers = {"X-Total-Count": str(total), "X-Limit": str(MOST)}
    end = asked.offset + len(texts)
    if texts and end < total:
        headers["Link"] = f'<{url}?{urlencode(query_of(asked, end))}>; rel="next"'
    return success(b"[" + b",".join(texts) + b"]", 200, headers)


def query_of(asked: Paging, offset: int) -> dict[str, Any]:
    """The parameters of the next page."""
    dates = {name: getattr(asked, name) for name in ("date_from", "date_to")}
    given = {name: f"{value}Z" for name, value in dates.items() if value is not None}
    return {**given, "offset": offset, "limit": asked.limit}
