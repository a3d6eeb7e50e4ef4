"""OCPI 2.2.1 as a sender: the CDRs, tariffs and tokens that concern a platform, and the clients of the hub."""

from __future__ import annotations

from collections.abc import Iterator
from dataclasses import dataclass
from typing import Any

from fastapi import APIRouter, Depends, Request
from starlette.responses import Response

from clear_service.house import House
from clear_service.json_text import member_texts, object_of_texts, text_of
from clear_service.lines import folded
from clear_service.moments import instant, moment_of
from clear_service.objects import Entry
from clear_service.ocpi import VERSION, base_of, object_text
from clear_service.offers import offers_of
from clear_service.outbox import Outbox
from clear_service.paging import Paging, page, paging
from clear_service.registers import CdrEntry
from clear_service.responses import ENVELOPE, described, house_of, sender_of
from clear_service.routing import checked_routing

router = APIRouter(prefix="/ocpi", tags=["OCPI 2.2.1"], dependencies=[Depends(checked_routing)])
clients = APIRouter(prefix="/ocpi", tags=["OCPI 2.2.1"])  # no routing headers belong to it
OF_LISTS = described(ENVELOPE, 400, 404, error=ENVELOPE)
CLEARING = "clearing"  # the member that each CDR of a list has beside those that were posted


def url_of(request: Request, module: str) -> str:
    """The URL of a module."""
    return f"{base_of(request)}/{VERSION}/{module}"


def parties_of(request: Request) -> tuple[set[str], bool, bool]:
    """The folded parties of the platform, and whether operators and whether providers are among them."""
    configuration = house_of(request).configuration
    own = configuration.parties_of(sender_of(request).platform)
    return (
        own,
        any(each in configuration.operators for each in own),
        any(each in configuration.providers for each in own),
    )


@router.get(f"/{VERSION}/cdrs", responses=OF_LISTS)
async def list_cdrs(request: Request, asked: Paging = Depends(paging)) -> Response:
    """Lists the CDRs and Credit CDRs of the platform's operators, and those that are billed to its providers, in the order of booking.

    Each is as it was posted, and has the member `clearing` beside: the booked amount, the period, and whether it is credited.
    """
    house = house_of(request)
    own, _, _ = parties_of(request)

    async def text(entry: CdrEntry) -> bytes:
        return with_clearing(await object_text(house, entry, "cdr"), entry)

    return await page(
        request, url_of(request, "cdrs"), asked, cdrs_of(house, own), lambda entry: entry.updated, text
    )


def cdrs_of(house: House, own: set[str]) -> Iterator[CdrEntry]:
    """The CDRs of these folded parties, each once."""
    cdrs = house.registers.cdrs
    if len(own) == 1:
        yield from cdrs.of_party(next(iter(own)))
        return
    for entry in list(cdrs.entries()) if own else ():
        if folded(entry.operator) in own or folded(entry.provider) in own:
            yield entry


def with_clearing(text: bytes, entry: CdrEntry) -> bytes:
    """The CDR with what the house has booked."""
    booked = text_of({"amount": entry.amount, "period": entry.period, "credited": entry.credited})
    if b'"clearing"' in text or b"\\u00" in text:
        return object_of_texts({**member_texts(text), CLEARING: booked})
    return text.rstrip()[:-1] + b',"clearing":' + booked + b"}"


@router.get(f"/{VERSION}/tariffs", responses=OF_LISTS)
async def list_tariffs(request: Request, asked: Paging = Depends(paging)) -> Response:
    """Lists the tariffs that are offered, each by the version that was updated last: for a provider all, for an operator its own."""
    house, offers = house_of(request), offers_of(request)
    own, _, is_provider = parties_of(request)
    entries = [
        entry
        for key, entry in house.registers.tariffs.items()
        if (is_provider or key[0] in own) and offers.has(key, entry)
    ]
    return await page_of_objects(request, "tariffs", asked, entries, "tariff")


@router.get(f"/{VERSION}/tokens", responses=OF_LISTS)
async def list_tokens(request: Request, asked: Paging = Depends(paging)) -> Response:
    """Lists the tokens as they were put last: for an operator all, for a provider its own."""
    house = house_of(request)
    own, is_operator, _ = parties_of(request)
    entries = [entry for key, entry in house.registers.tokens.items() if is_operator or key[0] in own]
    return await page_of_objects(request, "tokens", asked, entries, "token")


async def page_of_objects(
    request: Request, module: str, asked: Paging, entries: list[Entry], member: str
) -> Response:
    """A page of tariffs or tokens."""
    house = house_of(request)

    async def text(entry: Entry) -> bytes:
        return await object_text(house, entry, member)

    return await page(request, url_of(request, module), asked, entries, lambda entry: entry.updated, text)


@dataclass(frozen=True)
class Client:
    """A party of the hub as the module HubClientInfo shows it."""

    country_code: str
    party_id: str
    role: str
    status: str
    last_updated: str


@clients.get(f"/{VERSION}/hubclientinfo", responses=OF_LISTS)
async def list_clients(request: Request, asked: Paging = Depends(paging)) -> Response:
    """Lists the parties of the hub.

    A party is CONNECTED if its platform has registered, OFFLINE if the platform cannot be called, and PLANNED before it registers.
    """
    house = house_of(request)
    outbox = request.app.state.outbox
    assert isinstance(outbox, Outbox)

    async def text(client: Client) -> bytes:
        return text_of(client.__dict__)

    entries = list(clients_of(house, outbox))
    return await page(
        request,
        url_of(request, "hubclientinfo"),
        asked,
        entries,
        lambda each: instant(each.last_updated),
        text,
    )


def clients_of(house: House, outbox: Outbox) -> Iterator[Client]:
    """All configured parties with their roles: the operators, then the providers."""
    configuration = house.configuration
    for role, parties in (("CPO", configuration.operators), ("EMSP", configuration.providers)):
        for key, spelled in parties.items():
            platforms = [name for name in configuration.platforms if key in configuration.parties_of(name)]
            status, since = status_of(house, outbox, platforms)
            country, _, party_id = spelled.partition("/")
            yield Client(country, party_id, role, status, since)


def status_of(house: House, outbox: Outbox, platforms: list[str]) -> tuple[str, str]:
    """The status of a party by the platforms that act for it, and since when."""
    best: tuple[str, str] | None = None
    for name in platforms:
        peer = outbox.peers.find(name)
        if peer is None:
            continue
        contact = outbox.peers.contact(name)
        if contact.failure is None:
            return "CONNECTED", peer.registered
        best = best or ("OFFLINE", moment_of(contact.failing_since or 0))
    return best or ("PLANNED", moment_of(house.began))


def shown_peer(outbox: Outbox, platform: str) -> dict[str, Any]:
    """A peer as a hub sees it."""
    peer = outbox.peers.all[folded(platform)]
    contact = outbox.peers.contact(platform)
    queue = outbox.queues.get(folded(platform))
    return {
        "platform": peer.platform,
        "roles": list(peer.roles),
        "registered": peer.registered,
        "url": peer.url,
        "status": "CONNECTED" if contact.failure is None else "OFFLINE",
        "last_contact": None if contact.heard is None else moment_of(contact.heard),
        "failure": contact.failure,
        "waiting": len(queue.waiting) if queue else 0,
        "sent": queue.sent if queue else 0,
        "refused": outbox.refused(platform),
    }
