"""Receipts under /clearing: how many lines the house keeps, and the head after them, by which a store can be compared."""

from __future__ import annotations

from fastapi import APIRouter, Request
from starlette.responses import Response

from clear_service.lists import reader_of
from clear_service.moments import now
from clear_service.responses import TEXT, WHOLE, Problem, described, json_response, schema

router = APIRouter(prefix="/clearing", tags=["Clearing"])

HEAD = {"type": "string", "pattern": "^[0-9a-f]{64}$"}
RECEIPT = schema({"kept": WHOLE, "head": HEAD, "time": TEXT})


@router.get("/receipt", responses=described(RECEIPT, 501))
async def get_receipt(request: Request) -> Response:
    """How many lines are kept and answered, and the head after the store's first record and them."""
    house, _ = reader_of(request)
    return await receipt(request, house.registers.lines)


@router.get("/receipt/{kept}", responses=described(RECEIPT, 404, 501))
async def get_earlier_receipt(request: Request, kept: str) -> Response:
    """The head after the store's first record and the first `kept` lines, each of which is answered."""
    house, _ = reader_of(request)
    if not kept.isascii() or not kept.isdigit() or len(kept) > 18:
        raise Problem(400, "a number of lines is a whole number")
    if int(kept) > house.registers.lines:
        raise Problem(404, f"{house.registers.lines} lines are kept and answered")
    return await receipt(request, int(kept))


async def receipt(request: Request, kept: int) -> Response:
    """The receipt of so many lines. A token has a few at once, as each reads a batch of the store."""
    house, sender = reader_of(request)
    async with house.reads.turn(sender.digest):
        head = await house.engine.head(kept)
    if head is None:
        raise Problem(
            501, "receipts are of a store of `clear keep`; a database has no record that begins one"
        )
    return json_response({"kept": kept, "head": head.hex(), "time": now()})
