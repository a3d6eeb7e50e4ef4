"""OCPI 2.2.1: versions, the receiver of tariffs, tokens and CDRs, and real-time authorisation."""

from __future__ import annotations

from typing import Any
from urllib.parse import quote

from fastapi import APIRouter, Depends, Request
from starlette.responses import Response

from clear_service.answers import Answer
from clear_service.house import House
from clear_service.json_text import NotJson, member_text, member_texts, object_of, object_of_texts, text_of
from clear_service.lines import folded, in_one_line
from clear_service.objects import Entry
from clear_service.offers import offers_of
from clear_service.registers import CdrEntry
from clear_service.responses import (
    ENVELOPE,
    Problem,
    call_of,
    described,
    house_of,
    refused,
    sender_of,
    success,
    takes,
)
from clear_service.routing import answered_by, checked_routing, is_to_the_hub, party_of_headers
from clear_service.rows import JSON

VERSION = "2.2.1"
router = APIRouter(prefix="/ocpi", tags=["OCPI 2.2.1"])
modules = APIRouter(prefix="/ocpi", tags=["OCPI 2.2.1"], dependencies=[Depends(checked_routing)])
ENDPOINTS = (
    ("credentials", "SENDER"),
    ("tariffs", "RECEIVER"),
    ("tariffs", "SENDER"),
    ("tokens", "RECEIVER"),
    ("tokens", "SENDER"),
    ("cdrs", "RECEIVER"),
    ("cdrs", "SENDER"),
    ("hubclientinfo", "SENDER"),
)
OF_OBJECTS = described(ENVELOPE, 400, 404, 408, 413, error=ENVELOPE)
OF_CDRS = described(ENVELOPE, 400, 404, 408, 413, error=ENVELOPE, good_statuses=(200, 201))
OBJECT = {"type": "object"}


def base_of(request: Request) -> str:
    """The URL under which clients see the service: as it is set, by a host that is listed, or a path alone."""
    settings = house_of(request).settings
    if settings.url:
        return settings.url.rstrip("/") + "/ocpi"
    host = call_of(request).header("host") or ""
    return f"{request.url.scheme}://{host}/ocpi" if host in settings.listed_hosts else "/ocpi"


def absolute_base_of(request: Request) -> str:
    """The same for peers, which call it. Raises Problem if it is a path alone."""
    base = base_of(request)
    if base.startswith("/"):
        raise Problem(503, "the service does not know its URL: CLEAR_URL has to be set", 3000)
    return base


async def ocpi_object(request: Request, **wanted: str) -> tuple[dict[str, str], bytes]:
    """Texts that the body's object has under these names and `type`, and the object on one line. The body is dropped.

    The object has to be the one that the path names by the values that are not empty. Raises Problem.
    """
    body = call_of(request).take_body()
    async with house_of(request).pace.turn(len(body)):
        try:
            members = object_of(body)
        except NotJson:
            raise Problem(400, "Syntax: the body is no JSON object") from None
        texts = {name: members[name] for name in (*wanted, "type") if isinstance(members.get(name), str)}
        for name, value in wanted.items():
            if value and folded(texts.get(name, "")) != folded(value):
                raise Problem(400, f"Field: {name} of the object is not that of the path")
        return texts, in_one_line(body)


def done(answer: Answer, status: int = 200, headers: dict[str, str] | None = None) -> Response:
    """The envelope of an answer without data, or of a refusal."""
    return refused(answer) if answer.is_refusal else success(b"null", status, headers)


@router.get("/versions", responses=described(ENVELOPE, error=ENVELOPE))
async def versions(request: Request) -> Response:
    """Lists the versions."""
    return success(text_of([{"version": VERSION, "url": f"{base_of(request)}/{VERSION}"}]))


@router.get(f"/{VERSION}", responses=described(ENVELOPE, error=ENVELOPE))
async def version_details(request: Request) -> Response:
    """Lists the endpoints of version 2.2.1."""
    endpoints = [
        {"identifier": module, "role": role, "url": f"{base_of(request)}/{VERSION}/{module}"}
        for module, role in ENDPOINTS
    ]
    return success(text_of({"version": VERSION, "endpoints": endpoints}))


async def object_text(house: House, entry: Entry | CdrEntry, member: str) -> bytes:
    """The object of an entry as it was sent."""
    return member_text(await house.engine.line(entry.number), member)


def ensure_of_platform(request: Request, country_code: str, party_id: str) -> str:
    """The folded party of a path, for which the platform acts. Raises Problem."""
    party = folded(f"{country_code}/{party_id}")
    if party not in house_of(request).configuration.parties_of(sender_of(request).platform):
        raise Problem(404, "NotYours", 2000)
    return party


TARIFF = f"/{VERSION}/tariffs/{{country_code}}/{{party_id}}/{{tariff_id:path}}"
TOKEN = f"/{VERSION}/tokens/{{country_code}}/{{party_id}}/{{token_uid:path}}"


@modules.get(TARIFF, responses=OF_OBJECTS)
async def get_tariff(request: Request, country_code: str, party_id: str, tariff_id: str) -> Response:
    """Returns the version of a tariff that was updated last, if its operator offers it, to a platform that acts for the operator."""
    operator = ensure_of_platform(request, country_code, party_id)
    entry = offered_tariff(request, operator, tariff_id)
    return success(await object_text(house_of(request), entry, "tariff"))


def offered_tariff(request: Request, operator: str, tariff_id: str) -> Entry:
    """The tariff of a folded operator, if it is offered. Raises Problem."""
    key = operator, folded(tariff_id)
    entry = house_of(request).registers.tariffs.get(key)
    if entry is None or not offers_of(request).has(key, entry):
        raise Problem(404, "the operator offers no tariff of this id", 2000)
    return entry


@modules.put(TARIFF, responses=OF_OBJECTS, openapi_extra=takes(JSON, body=OBJECT))
async def put_tariff(request: Request, country_code: str, party_id: str, tariff_id: str) -> Response:
    """Stores a version of a tariff, and offers the tariff again if it was not offered."""
    _, text = await ocpi_object(request, country_code=country_code, party_id=party_id, id=tariff_id)
    house, sender = house_of(request), sender_of(request)
    answer = await house.ask(sender.platform, "put_tariff", [("tariff", text)], call_of(request).request_id)
    if not answer.is_refusal:
        await offers_of(request).offer((folded(f"{country_code}/{party_id}"), folded(tariff_id)))
    return done(answer)


@modules.delete(TARIFF, responses=OF_OBJECTS)
async def delete_tariff(request: Request, country_code: str, party_id: str, tariff_id: str) -> Response:
    """Ends the offer of a tariff. Its versions stay stored, so CDRs by them are booked as before."""
    operator = ensure_of_platform(request, country_code, party_id)
    entry = offered_tariff(request, operator, tariff_id)
    await offers_of(request).withdraw((operator, folded(tariff_id)), entry)
    return success(b"null")


@modules.get(TOKEN, responses=OF_OBJECTS)
async def get_token(
    request: Request, country_code: str, party_id: str, token_uid: str, type: str = "RFID"
) -> Response:
    """Returns a token as it was put last, to a platform that acts for its provider."""
    provider = ensure_of_platform(request, country_code, party_id)
    return success(await token_text(request, provider, token_uid, type))


async def token_text(request: Request, provider: str, uid: str, kind: str) -> bytes:
    """The token of a folded provider as it was put last. Raises Problem."""
    house = house_of(request)
    entry = house.registers.tokens.get((provider, folded(uid), kind))
    if entry is None:
        raise Problem(404, "UnknownToken", 2004)
    return await object_text(house, entry, "token")


@modules.put(TOKEN, responses=OF_OBJECTS, openapi_extra=takes(JSON, body=OBJECT))
async def put_token(
    request: Request, country_code: str, party_id: str, token_uid: str, type: str = "RFID"
) -> Response:
    """Stores a token."""
    texts, text = await ocpi_object(request, country_code=country_code, party_id=party_id, uid=token_uid)
    if texts.get("type", type) != type:
        raise Problem(400, "Field: type of the object is not that of the path")
    return await stored_token(request, text)


async def stored_token(request: Request, text: bytes) -> Response:
    """The envelope of the answer to `put_token`."""
    house, sender = house_of(request), sender_of(request)
    return done(await house.ask(sender.platform, "put_token", [("token", text)], call_of(request).request_id))


@modules.patch(TOKEN, responses=OF_OBJECTS, openapi_extra=takes(JSON, body=OBJECT))
async def patch_token(
    request: Request, country_code: str, party_id: str, token_uid: str, type: str = "RFID"
) -> Response:
    """Puts the token with the members of the body in the place of its own; `last_updated` has to be one of them."""
    provider = ensure_of_platform(request, country_code, party_id)
    try:
        given = member_texts(in_one_line(call_of(request).take_body()))
    except NotJson:
        raise Problem(400, "Syntax: the body is no JSON object") from None
    if "last_updated" not in given:
        raise Problem(400, "Field: last_updated is missing")
    if given.keys() & {"country_code", "party_id", "uid", "type"}:
        raise Problem(400, "Field: country_code, party_id, uid and type of a token do not change")
    async with house_of(request).changing(provider):
        merged = {**member_texts(await token_text(request, provider, token_uid, type)), **given}
        return await stored_token(request, object_of_texts(merged))


def sending_operator(request: Request) -> str:
    """The operator that the routing headers name; without them the only one of the platform. Raises Problem."""
    named = party_of_headers(request, "from")
    choices = house_of(request).configuration.operators_of(sender_of(request).platform)
    if named is None and len(choices) != 1:
        raise Problem(400, "Field: OCPI-from-country-code and OCPI-from-party-id have to name the operator")
    return named or choices[0]


def provider_of_token(request: Request, uid: str, kind: str) -> str:
    """The provider that the routing headers name. If they name the hub or nobody, it is the only one, or the one that has put the token.

    Raises Problem.
    """
    if not is_to_the_hub(request):
        return party_of_headers(request, "to") or ""
    house = house_of(request)
    providers = house.configuration.providers
    having = [key for key in providers if (key, folded(uid), kind) in house.registers.tokens]
    if len(having) > 1:
        raise Problem(400, "Field: several providers have this token; OCPI-to-party-id has to name one")
    if not having and len(providers) != 1:
        raise Problem(404, "UnknownToken", 2004)
    found: str = providers[having[0]] if having else next(iter(providers.values()))
    answered_by(request, found)
    return found


@modules.post(
    f"/{VERSION}/tokens/{{token_uid:path}}/authorize",
    responses=OF_OBJECTS,
    openapi_extra={"requestBody": {"required": False, "content": {JSON: {"schema": OBJECT}}}},
)
async def authorize(
    request: Request, token_uid: str, type: str = "RFID", currency: str | None = None
) -> Response:
    """Asks the provider's credit for leave to charge. The body, LocationReferences, decides nothing."""
    house, sender = house_of(request), sender_of(request)
    if call_of(request).body.strip():
        await ocpi_object(request)
    operator = sending_operator(request)
    provider = provider_of_token(request, token_uid, type)
    if currency is None:
        currency = only_currency(house, operator)
    members = [
        ("operator", text_of(operator)),
        ("provider", text_of(provider)),
        ("uid", text_of(token_uid)),
        ("type", text_of(type)),
        ("currency", text_of(currency)),
    ]
    answer = await house.ask(sender.platform, "authorize", members, call_of(request).request_id)
    if answer.is_refusal:
        return refused(answer)
    return success(await authorization_info(house, answer, (provider, token_uid, type)))


def only_currency(house: House, operator: str) -> str:
    """The only configured currency, or the only one in which the operator has put tariffs. Raises Problem if there is none."""
    configured = house.configuration.currencies
    put = house.registers.tariff_currencies.get(folded(operator), set())
    choices = configured if len(configured) == 1 else [currency for currency in configured if currency in put]
    if len(choices) != 1:
        listed = ", ".join(choices or configured)
        raise Problem(400, f"Field: the parameter currency is required, one of {listed}")
    return choices[0]


async def authorization_info(house: House, answer: Answer, of: tuple[str, str, str]) -> bytes:
    """OCPI's AuthorizationInfo, with the token as it was put last."""
    provider, uid, kind = of
    info: dict[str, Any] = {"allowed": answer.name}
    if answer.name == "ALLOWED":
        info["authorization_reference"] = answer.members["authorization_reference"]
    entry = house.registers.tokens.get((folded(provider), folded(uid), kind))
    beginning = text_of(info)[:-1]
    if entry is None:
        return beginning + b"}"
    return beginning + b',"token":' + await object_text(house, entry, "token") + b"}"


@modules.post(f"/{VERSION}/cdrs", responses=OF_CDRS, openapi_extra=takes(JSON, body=OBJECT))
async def post_cdr(request: Request) -> Response:
    """Books a CDR or a Credit CDR. Location has its URL."""
    texts, text = await ocpi_object(request, country_code="", party_id="", id="")
    house, sender = house_of(request), sender_of(request)
    answer = await house.ask(sender.platform, "post", [("cdr", text)], call_of(request).request_id)
    if answer.is_refusal:
        return refused(answer)
    operator = f"{texts['country_code']}/{texts['party_id']}"
    location = (
        f"{base_of(request)}/{VERSION}/cdrs/{quote(texts['id'], safe='')}?operator={quote(operator, safe='')}"
    )
    return done(answer, 201 if answer.name == "Accepted" else 200, {"Location": location})


@modules.get(f"/{VERSION}/cdrs/{{cdr_id:path}}", responses=OF_OBJECTS)
async def get_cdr(request: Request, cdr_id: str, operator: str | None = None) -> Response:
    """Returns a CDR as it was posted, to a platform that acts for its operator or for the provider that it bills."""
    house, sender = house_of(request), sender_of(request)
    billed = billed_cdr(request, cdr_id, operator)
    if billed is not None:
        return success(await object_text(house, billed, "cdr"))
    chosen = operator or only_operator(house, sender.platform, cdr_id)
    answer = await house.ask(
        sender.platform, "find", [("operator", text_of(chosen)), ("id", text_of(cdr_id))]
    )
    if answer.is_refusal:
        return refused(answer)
    entry = house.registers.cdrs.find(chosen, cdr_id)
    if entry is None:
        raise Problem(404, "UnknownCdr", 2000)
    return success(await object_text(house, entry, "cdr"))


def billed_cdr(request: Request, cdr_id: str, operator: str | None) -> CdrEntry | None:
    """The CDR of the id that a provider of the platform owes; None if there is none, or the operator is one of the platform too.

    Raises Problem if several operators have billed a CDR of this id.
    """
    house = house_of(request)
    configuration = house.configuration
    own = configuration.parties_of(sender_of(request).platform)
    found = []
    for each in [operator] if operator else configuration.operators:
        entry = house.registers.cdrs.find(each, cdr_id) if folded(each) not in own else None
        if entry is not None and folded(entry.provider) in own:
            found.append(entry)
    if len(found) > 1:
        raise Problem(400, "Field: several operators have this id; the parameter operator is required")
    return found[0] if found else None


def only_operator(house: House, platform: str, cdr_id: str) -> str:
    """The operator of the platform that has a CDR of this id. Raises Problem if there are several."""
    operators = house.configuration.operators_of(platform)
    having = [operator for operator in operators if house.registers.cdrs.find(operator, cdr_id) is not None]
    if len(having) > 1:
        raise Problem(400, "Field: several operators have this id; the parameter operator is required")
    if not having and not operators:
        raise Problem(404, "UnknownCdr", 2000)
    return (having or operators)[0]
