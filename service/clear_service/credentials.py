"""OCPI 2.2.1, module Credentials: how a platform registers as a peer, changes its registration, and ends it.

A platform begins with token A of `service/tokens register`. It posts its own token B and the URL of its versions; the service asks these
by token B for the endpoints, and answers with token C, by which the platform calls the service from then on.
"""

from __future__ import annotations

import asyncio
import base64
import logging
import re
import secrets
from dataclasses import dataclass
from typing import Any

from fastapi import APIRouter, Request
from starlette.responses import Response

from clear_service.json_text import text_of, with_numbers
from clear_service.lines import folded
from clear_service.moments import now
from clear_service.ocpi import VERSION, absolute_base_of
from clear_service.outbox import Outbox
from clear_service.peer_calls import LONGEST_URL, CallError, is_url
from clear_service.peers import PEER, Endpoint, Peer
from clear_service.records import RecordsError
from clear_service.responses import ENVELOPE, Problem, call_of, described, house_of, sender_of, success, takes
from clear_service.rows import JSON
from clear_service.secret_texts import SecretError
from clear_service.senders import Senders, TokenFileError, digest_of

log = logging.getLogger("clear_service")

PATH = f"/{VERSION}/credentials"
router = APIRouter(prefix="/ocpi", tags=["OCPI 2.2.1"])
OF_CREDENTIALS = described(ENVELOPE, 403, 405, 413, error=ENVELOPE)
ROLES = {"CPO": "operators", "EMSP": "providers"}
TOKEN = re.compile(r"[\x21-\x7e]{1,64}")
MOST_ROLES = 1000
MOST_ENDPOINTS = 100
BODY = {"type": "object", "required": ["token", "url", "roles"]}

# OCPI 2.2.1, chapter Status codes.
UNABLE, UNSUPPORTED, NO_ENDPOINTS = 3001, 3002, 3003


@dataclass(frozen=True)
class Credentials:
    """What a platform has posted or put."""

    token: str
    url: str
    roles: tuple[dict[str, Any], ...]


def outbox_of(request: Request) -> Outbox:
    """What is delivered to peers."""
    found = request.app.state.outbox
    assert isinstance(found, Outbox)
    return found


def platform_of(request: Request) -> str:
    """The platform of the token, also of one that only registers it. Raises Problem."""
    sender = sender_of(request)
    platform = sender.registers or sender.platform
    if not house_of(request).configuration.has_platform(platform):
        raise Problem(403, "the platform of the token is not configured", 2000)
    return platform


def own_credentials(request: Request, token: str) -> bytes:
    """The credentials by which the platform calls the service."""
    settings = house_of(request).settings
    country, party = settings.own_party
    role = {
        "role": "HUB",
        "business_details": {"name": settings.name},
        "party_id": party,
        "country_code": country,
    }
    url = f"{absolute_base_of(request)}/versions"
    return text_of({"token": token, "url": url, "roles": [role]})


def token_of(request: Request) -> str:
    """The token of the request, as it was written or decoded from Base64."""
    written = (call_of(request).header("authorization") or "").partition(" ")[2].strip()
    if digest_of(written.encode("latin-1")) == sender_of(request).digest:
        return written
    return base64.b64decode(written).decode("latin-1")


def credentials_of(request: Request, platform: str) -> Credentials:
    """The credentials of the body, whose roles the platform has. Raises Problem."""
    try:
        found = with_numbers(call_of(request).take_body())
    except (ValueError, RecursionError):
        raise Problem(400, "Syntax: the body is no JSON object") from None
    token, url, roles = found.get("token"), found.get("url"), found.get("roles")
    if not isinstance(token, str) or not TOKEN.fullmatch(token):
        raise Problem(400, "Field: token has to have 1 to 64 printable ASCII characters")
    if not is_url(house_of(request).settings, url):
        raise Problem(400, f"Field: url has to be a URL of at most {LONGEST_URL} characters, with https")
    if not isinstance(roles, list) or not 0 < len(roles) <= MOST_ROLES:
        raise Problem(400, f"Field: roles has to be a list of 1 to {MOST_ROLES} roles")
    shown = tuple(role_of(request, platform, nth, role) for nth, role in enumerate(roles))
    return Credentials(token, str(url), shown)


def role_of(request: Request, platform: str, nth: int, role: object) -> dict[str, Any]:
    """A role of the credentials: an operator or a provider for which the platform acts by the configuration. Raises Problem."""
    members = role if isinstance(role, dict) else {}
    kind, country, party = (members.get(name) for name in ("role", "country_code", "party_id"))
    if not isinstance(kind, str) or kind not in ROLES:
        raise Problem(400, f"Field: roles[{nth}].role has to be CPO or EMSP")
    if not isinstance(country, str) or not isinstance(party, str):
        raise Problem(400, f"Field: roles[{nth}] has to have country_code and party_id")
    configuration = house_of(request).configuration
    named = folded(f"{country}/{party}")
    configured: dict[str, str] = getattr(configuration, ROLES[kind])
    if named not in configured or named not in configuration.parties_of(platform):
        what = ROLES[kind][:-1]
        raise Problem(
            200, f"UnknownParty: roles[{nth}] is no {what} of this platform by the configuration", 2000
        )
    return {"role": kind, "party": configured[named]}


async def endpoints_of(request: Request, given: Credentials) -> tuple[Endpoint, ...]:
    """The endpoints of the platform's version 2.2.1, which it says itself. Raises Problem."""
    calls = outbox_of(request).calls
    settings = house_of(request).settings
    try:
        versions = await calls.call("GET", given.url, given.token)
        listed = {each["version"]: each["url"] for each in versions}
        if not is_url(settings, listed.get(VERSION)):
            raise Problem(
                200, f"the platform has no version {VERSION} with a URL that may be called", UNSUPPORTED
            )
        details = await calls.call("GET", listed[VERSION], given.token)
        found = tuple(
            Endpoint(str(each["identifier"]), str(each["role"]), each["url"]) for each in details["endpoints"]
        )
    except CallError as error:
        raise Problem(200, f"the platform's endpoints cannot be read: {error}", UNABLE) from None
    except (KeyError, TypeError):
        raise Problem(200, "the platform's versions or endpoints are not as OCPI has them", UNABLE) from None
    if len(found) > MOST_ENDPOINTS or not all(is_url(settings, each.url) for each in found):
        raise Problem(200, "the platform has an endpoint that may not be called", NO_ENDPOINTS)
    if not any(each.identifier == "credentials" for each in found):
        raise Problem(200, "the platform has no endpoint credentials", NO_ENDPOINTS)
    return found


async def register(request: Request, platform: str) -> Response:
    """Keeps the platform as a peer, and returns our credentials with a new token C."""
    outbox = outbox_of(request)
    own_credentials(request, "")
    given = credentials_of(request, platform)
    before = outbox.peers.find(platform)
    found = await endpoints_of(request, given)
    token = secrets.token_urlsafe(32)
    try:
        secret = await asyncio.to_thread(outbox.secrets.encrypted, given.token)
        peer = Peer(
            platform,
            digest_of(token.encode()),
            secret,
            given.url,
            found,
            given.roles,
            before.registered if before else now(),
            before.after if before else house_of(request).registers.lines,
        )
        await outbox.peers.put(peer)
    except (SecretError, RecordsError) as error:
        raise Problem(503, f"the registration cannot be kept: {error}", 3000) from None
    outbox.peers.reached(platform)
    return success(own_credentials(request, token))


def ensure_available(request: Request) -> None:
    """Raises Problem if peers cannot be kept."""
    reason = outbox_of(request).peers.unavailable
    if reason is not None:
        raise Problem(503, f"registrations cannot be read: {reason}", 3000)


def method_not_allowed(message: str) -> Problem:
    """OCPI's response to a registration that is there already, or is not there."""
    return Problem(405, message, 2000)


@router.get(PATH, responses=OF_CREDENTIALS)
async def get_credentials(request: Request) -> Response:
    """Returns the credentials by which the platform calls the service: its token, the URL of the versions, our role."""
    platform_of(request)
    return success(own_credentials(request, token_of(request)))


@router.post(PATH, responses=OF_CREDENTIALS, openapi_extra=takes(JSON, body=BODY))
async def post_credentials(request: Request) -> Response:
    """Registers the platform of token A, which then is no token any more."""
    platform = platform_of(request)
    ensure_available(request)
    sender = sender_of(request)
    if sender.registers is None:
        raise method_not_allowed("the token is not one that registers a platform")
    async with outbox_of(request).registering(platform):
        if outbox_of(request).peers.find(platform) is not None:
            raise method_not_allowed("the platform is registered")
        response = await register(request, platform)
        senders = request.app.state.senders
        assert isinstance(senders, Senders)
        try:
            await asyncio.to_thread(senders.forget, sender)
        except (TokenFileError, OSError) as error:
            log.warning("the token that registered %s stays in the file: %s", platform, error)
        return response


@router.put(PATH, responses=OF_CREDENTIALS, openapi_extra=takes(JSON, body=BODY))
async def put_credentials(request: Request) -> Response:
    """Changes the registration, and returns a new token C; the one of before is no token any more."""
    platform = peer_platform(request)
    async with outbox_of(request).registering(platform):
        return await register(request, platform)


@router.delete(PATH, responses=OF_CREDENTIALS)
async def delete_credentials(request: Request) -> Response:
    """Ends the registration: the platform's token C is no token any more, and nothing is delivered to it."""
    platform = peer_platform(request)
    await end(request, platform)
    return success(b"null")


def peer_platform(request: Request) -> str:
    """The platform of the token, which is that of a registered peer. Raises Problem."""
    platform = platform_of(request)
    ensure_available(request)
    peer = outbox_of(request).peers.find(platform)
    if peer is None or peer.digest != sender_of(request).digest:
        raise method_not_allowed("the token is not that of a registration")
    return platform


async def end(request: Request, platform: str) -> None:
    """Ends the registration of a platform, and drops what waits for it. Raises Problem."""
    outbox = outbox_of(request)
    try:
        await outbox.peers.change({(PEER, folded(platform)): None, **outbox.ended(platform)})
    except RecordsError as error:
        raise Problem(503, f"the registration cannot be ended: {error}", 3000) from None
