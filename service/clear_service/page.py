"""The page at `/`, its files, and the endpoints that only the page needs: who the sender is, and a CDR with its price."""

from __future__ import annotations

import csv
import hashlib
import io
from dataclasses import asdict, dataclass
from pathlib import Path
from typing import Any

from fastapi import APIRouter, Request
from starlette.responses import Response

from clear_service.child import output_of
from clear_service.lists import reader_of, sight_of
from clear_service.waiting import Unavailable
from clear_service.house import House
from clear_service.json_text import member_text
from clear_service.lines import folded
from clear_service.registers import CdrEntry
from clear_service.responses import (
    AMOUNT,
    FLAG,
    TEXT,
    WHOLE,
    Problem,
    call_of,
    described,
    json_response,
    list_of,
    schema,
    sender_of,
)

router = APIRouter()

FOLDER = Path(__file__).resolve().parent / "page_files"
TYPES = {
    ".html": "text/html",
    ".css": "text/css",
    ".js": "text/javascript",
    ".svg": "image/svg+xml",
}
# The page loads nothing from elsewhere, sends nothing elsewhere, and is in no frame. `form-action` keeps the browser from
# sending the form with the token by itself, should the script not run.
POLICY = "; ".join(
    (
        "default-src 'none'",
        "script-src 'self'",
        "style-src 'self'",
        "img-src 'self'",
        "connect-src 'self'",
        "base-uri 'none'",
        "form-action 'none'",
        "frame-ancestors 'none'",
        "require-trusted-types-for 'script'",
        "trusted-types 'none'",
    )
)
HEADERS = {
    "Content-Security-Policy": POLICY,
    "X-Content-Type-Options": "nosniff",
    "Referrer-Policy": "no-referrer",
    "Cross-Origin-Opener-Policy": "same-origin",
    "Cross-Origin-Resource-Policy": "same-origin",
    "Cache-Control": "no-cache",
}


@dataclass(frozen=True)
class PageFile:
    """A file of the page: its bytes, its media type, and the tag by which a browser knows that it has it."""

    body: bytes
    media_type: str
    tag: str


def page_file(path: Path) -> PageFile:
    """Reads a file of the page."""
    body = path.read_bytes()
    return PageFile(body, TYPES[path.suffix], f'"{hashlib.sha256(body).hexdigest()[:32]}"')


FILES = {path.name: page_file(path) for path in sorted(FOLDER.iterdir()) if path.suffix in TYPES}


@router.get("/", include_in_schema=False)
async def page(request: Request) -> Response:
    """The page. It holds no data: its script asks the endpoints with the token that the reader types."""
    return file_response(request, FILES["index.html"])


@router.get("/page/{name}", include_in_schema=False)
async def file_of_page(request: Request, name: str) -> Response:
    """A style sheet, a script or a picture of the page."""
    if name not in FILES:
        raise Problem(404, "the page has no such file")
    return file_response(request, FILES[name])


def file_response(request: Request, file: PageFile) -> Response:
    """The file, or status 304 if the browser has it."""
    headers = {**HEADERS, "ETag": file.tag}
    if call_of(request).header("if-none-match") == file.tag:
        return Response(status_code=304, headers=headers)
    return Response(file.body, headers=headers, media_type=file.media_type)


SENDER = schema(
    {
        "platform": TEXT,
        "hub": FLAG,
        **{name: list_of(TEXT) for name in ("currencies", "operators", "providers", "warnings")},
    }
)


@router.get("/clearing/sender", tags=["Clearing"], responses=described(SENDER))
async def get_sender(request: Request) -> Response:
    """The platform of the token, whether it is a hub, the currencies, and its parties with their counterparts; for a hub all parties."""
    house, sender = reader_of(request)
    configuration = house.configuration
    seen = None if configuration.is_hub(sender.platform) else house.registers.dealt_with(sender.platform)
    shown: dict[str, object] = {
        "warnings": house.warnings() if seen is None else [],
        "platform": sender.platform,
        "hub": configuration.is_hub(sender.platform),
        "currencies": configuration.currencies,
        "operators": [party for key, party in configuration.operators.items() if seen is None or key in seen],
        "providers": [party for key, party in configuration.providers.items() if seen is None or key in seen],
    }
    return json_response(shown)


COST_COLUMNS = ("component", "period", "volume", "price", "cost")
COST_ROW = schema({name: TEXT for name in COST_COLUMNS})
PRICED_CDR = schema(
    {
        **{
            name: TEXT
            for name in ("operator", "provider", "id", "session", "start", "end", "energy", "currency")
        },
        "amount": AMOUNT,
        "period": WHOLE,
        "credits": TEXT,
        "credited": FLAG,
        "rows": list_of(COST_ROW),
    }
)


@router.get("/clearing/cdrs", tags=["Clearing"], responses=described(PRICED_CDR, 404))
async def get_cdr_with_price(request: Request, operator: str, id: str) -> Response:
    """A booked CDR with its price row by row, as `clear explain_cost` prints it.

    A Credit CDR has no rows: its amount is that of the CDR that it credits. A hub may read each CDR, and another platform
    those of its parties.
    """
    house, sight = sight_of(request)
    entry = house.registers.cdrs.find(operator, id)
    if entry is None or not sight.of(folded(entry.operator), folded(entry.provider)):
        raise Problem(404, "no CDR of this operator has this id")
    shown = asdict(entry)
    del shown["number"], shown["updated"]
    async with house.reads.turn(sender_of(request).digest):
        return json_response({**shown, "rows": [] if entry.credits else await cost_rows(house, entry)})


async def cost_rows(house: House, entry: CdrEntry) -> list[dict[str, str]]:
    """The price of a booked CDR by the operator's zone. Raises Unavailable if the program fails."""
    cdr = member_text(await house.engine.line(entry.number), "cdr")
    words = [house.settings.program, "explain_cost", house.configuration.zone(entry.operator)]
    status, out, err = await output_of(words, cdr, house.settings.answer_seconds)
    if status != 0:
        raise Unavailable(f"explain_cost: {err}")
    return list(csv.DictReader(io.StringIO(out.decode())))
