"""Peers under /clearing, for a hub: who has registered, what waits for them, what they refused."""

from __future__ import annotations

from fastapi import APIRouter, Request
from starlette.responses import Response

from clear_service.credentials import end, outbox_of
from clear_service.lists import list_response, reader_of
from clear_service.ocpi_lists import shown_peer
from clear_service.responses import TEXT, WHOLE, Problem, described, json_response, list_of, schema

router = APIRouter(prefix="/clearing", tags=["Clearing"])

REFUSED = schema({"line": WHOLE, **{name: TEXT for name in ("module", "owner", "id", "reason", "time")}})
PEER = schema(
    {
        **{name: TEXT for name in ("platform", "registered", "url")},
        "status": {"type": "string", "enum": ["CONNECTED", "OFFLINE"]},
        "roles": list_of(schema({"role": TEXT, "party": TEXT})),
        "last_contact": {"type": ["string", "null"]},
        "failure": {"type": ["string", "null"]},
        "waiting": WHOLE,
        "sent": WHOLE,
        "refused": list_of(REFUSED),
    }
)


def ensure_hub(request: Request) -> None:
    """Raises Problem if the sender is no hub."""
    house, sender = reader_of(request)
    if not house.configuration.is_hub(sender.platform):
        raise Problem(403, "only a hub sees its peers")


@router.get("/peers", responses=described(list_of(PEER), 403))
async def get_peers(request: Request) -> Response:
    """The platforms that have registered: whether they can be called, when they were heard of last, what waits for them."""
    ensure_hub(request)
    outbox = outbox_of(request)
    return list_response(request, [shown_peer(outbox, key) for key in list(outbox.peers.all)])


@router.delete("/peers/{platform}", responses=described(schema({"ended": TEXT}), 403, 404))
async def delete_peer(request: Request, platform: str) -> Response:
    """Ends the registration of a platform: its token is none any more, and what waits for it is dropped."""
    ensure_hub(request)
    peer = outbox_of(request).peers.find(platform)
    if peer is None:
        raise Problem(404, "the platform has not registered")
    await end(request, peer.platform)
    return json_response({"ended": peer.platform})


@router.post("/peers/{platform}/refused", responses=described(list_of(REFUSED), 403, 404, 409))
async def send_refused(request: Request, platform: str) -> Response:
    """Sends again what the platform has refused, in its order, until an attempt fails. Returns what still is refused."""
    ensure_hub(request)
    outbox = outbox_of(request)
    peer = outbox.peers.find(platform)
    if peer is None:
        raise Problem(404, "the platform has not registered")
    failure = await outbox.send_refused(peer)
    if failure is not None:
        raise Problem(409, f"the platform cannot be called: {failure}")
    return json_response(outbox.refused(platform))
