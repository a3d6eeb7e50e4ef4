"""Clearing beside OCPI: bulk lines, closes, settlements, releases of holds."""

from __future__ import annotations

import json

from fastapi import APIRouter, Request
from starlette.responses import Response

from clear_service.answers import without_cause
from clear_service.house import House
from clear_service.json_text import NotJson, member_text, object_of
from clear_service.lines import BulkLines, folded, in_one_line
from clear_service.lists import age_of, reader_of
from clear_service.registers import Hold
from clear_service.responses import (
    ANSWER,
    LINES,
    TEXT,
    WHOLE,
    Problem,
    answer_response,
    call_of,
    described,
    house_of,
    json_response,
    list_of,
    schema,
    sender_of,
    takes,
)
from clear_service.rows import JSON

router = APIRouter(prefix="/clearing", tags=["Clearing"])


def members_of(request: Request, *names: str) -> list[tuple[str, bytes]]:
    """The members of the body's object, as the members of a line. Those that are missing are left out. Raises Problem."""
    body = call_of(request).take_body()
    try:
        found = object_of(body)
    except NotJson:
        raise Problem(400, "the body is no JSON object") from None
    for name in found:
        if name not in names:
            raise Problem(400, f"the body has the unknown member {name[:64]!a}")
    return [(name, in_one_line(member_text(body, name))) for name in names if name in found]


@router.post(
    "/lines",
    responses=described(LINES, 400, 403, 408, 413),
    openapi_extra=takes(LINES, '{"do":"exposure","provider":"NL/MSA","currency":"EUR"}'),
)
async def post_lines(request: Request) -> Response:
    """Answers request lines, one after another. A line without a platform is of the token's platform."""
    house = house_of(request)
    lines = await lines_of(request)
    answers = [without_cause(answer) for answer in await house.answers(lines)]
    return Response(b"\n".join([*answers, b""]), media_type=LINES)


async def lines_of(request: Request) -> list[bytes]:
    """The lines of the body, which then is dropped. Raises LineError."""
    house = house_of(request)
    settings = house.settings
    most = min(settings.bulk_lines, settings.queue_lines, settings.token_lines)
    body = call_of(request).take_body()
    pieces = BulkLines(sender_of(request).platform).pieces(body, most)
    lines: list[bytes] = []
    while True:
        async with house.pace.turn(len(body)):
            piece = next(pieces, None)
        if piece is None:
            return lines
        lines += piece


@router.post(
    "/close",
    responses=described(ANSWER, 400, 403, 409, 507),
    openapi_extra=takes(JSON, {"period": 0}, schema({"period": WHOLE})),
)
async def post_close(request: Request) -> Response:
    """Closes the current period, which the body names."""
    members = members_of(request, "period")
    return await ask(request, "close", members)


@router.post(
    "/settlements",
    responses=described(ANSWER, 400, 403, 404, 409, 422, 507),
    openapi_extra=takes(
        JSON,
        {"provider": "NL/MSA", "currency": "EUR", "period": 0},
        schema({"provider": TEXT, "currency": TEXT, "period": WHOLE}),
    ),
)
async def post_settlement(request: Request) -> Response:
    """States that a provider's net amounts of a closed period in a currency are paid: nothing of them is open then.

    They are the net amounts of its statement. The answer has the debt that ends: the credit that the provider
    gets back.
    """
    return await ask(request, "settle", members_of(request, "provider", "currency", "period"))


async def ask(request: Request, do: str, members: list[tuple[str, bytes]]) -> Response:
    """The answer to a line of the sender."""
    answer = await house_of(request).ask(
        sender_of(request).platform, do, members, call_of(request).request_id
    )
    return answer_response(answer)


@router.post("/holds/{reference}/release", responses=described(ANSWER, 403, 404, 409))
async def release_hold(request: Request, reference: str) -> Response:
    """Releases a hold that is older than the configured time; only a hub may."""
    house = hub_house_of(request)
    sender, request_id = sender_of(request), call_of(request).request_id
    hold = house.registers.holds.get(folded(reference))
    if hold is None:
        again = [
            each for each in house.released(sender, request_id) if folded(each.reference) == folded(reference)
        ]
        if not again:
            raise Problem(404, "no open hold has this reference")
        (answer,) = await house.release(sender, request_id, again[:1])
        return answer_response(answer)
    if not is_old(house, hold):
        raise Problem(409, f"the hold is not older than {house.settings.hold_seconds} seconds")
    (answer,) = await house.release(sender, request_id, [house.release_of(hold)])
    return answer_response(answer)


def is_old(house: House, hold: Hold) -> bool:
    """Whether a hub may release the hold."""
    return age_of(house, hold) >= house.settings.hold_seconds


def hub_house_of(request: Request) -> House:
    """The house. Raises Problem if the sender is no hub."""
    house, sender = reader_of(request)
    if not house.configuration.is_hub(sender.platform):
        raise Problem(403, "only a hub releases holds; an operator sends the line `release`")
    return house


RELEASED = schema(
    {"reference": TEXT, "status_code": WHOLE, "answer": TEXT, "refusal": TEXT}, "answer", "refusal"
)


@router.post("/holds/release", responses=described(list_of(RELEASED), 403))
async def release_old_holds(request: Request) -> Response:
    """Releases all holds that are older than the configured time; only a hub may. Returns an answer for each.

    Those that were released under the same request id come again, before the others.
    """
    house = hub_house_of(request)
    sender, request_id = sender_of(request), call_of(request).request_id
    releases = [*house.released(sender, request_id)]
    for hold in list(house.registers.holds.values()):
        if is_old(house, hold):
            releases.append(house.release_of(hold))
    releases = releases[: min(house.settings.queue_lines, house.settings.token_lines) // 2]
    answers = await house.release(sender, request_id, releases, one_of_many=True)
    shown = [
        {"reference": each.reference, **json.loads(answer.plain)} for each, answer in zip(releases, answers)
    ]
    return json_response(shown)
