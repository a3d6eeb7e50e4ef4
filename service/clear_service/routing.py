"""The routing headers of OCPI 2.2.1, chapter 4: which party a request is from and which one it is to.

A request to the hub's own party leaves it to the service to find the party by the object. The response has the two parties the other way
round, and after such a request the party that was found.
"""

from __future__ import annotations

from fastapi import Request

from clear_service.lines import folded
from clear_service.responses import Problem, call_of, house_of, sender_of

UNKNOWN_RECEIVER = 4001  # OCPI 2.2.1, chapter Status codes


def party_of_headers(request: Request, direction: str) -> str | None:
    """The party that the headers of this direction name, `from` or `to`; None if they are missing. Raises Problem."""
    call = call_of(request)
    country, party = (call.header(f"ocpi-{direction}-{name}") for name in ("country-code", "party-id"))
    if not country and not party:
        return None
    if not country or not party or not f"{country}{party}".isalnum() or len(country) != 2 or len(party) != 3:
        raise Problem(
            400, f"Field: OCPI-{direction}-country-code and OCPI-{direction}-party-id have to name a party"
        )
    return f"{country}/{party}"


def own_party(request: Request) -> str:
    """The hub's own party."""
    return "/".join(house_of(request).settings.own_party)


def is_to_the_hub(request: Request) -> bool:
    """Whether the request names no receiver, or the hub's own party."""
    party = party_of_headers(request, "to")
    return party is None or folded(party) == folded(own_party(request))


async def checked_routing(request: Request) -> None:
    """Checks the parties of the headers, and puts them into the response. Raises Problem.

    The sender has to act for the party that a request is from, and the party that it is to has to be configured.
    """
    configuration = house_of(request).configuration
    sent, to = party_of_headers(request, "from"), party_of_headers(request, "to")
    is_known = to is None or configuration.spelled(to) is not None or is_to_the_hub(request)
    if sent is not None:
        _respond(request, "to", sent)
    if to is not None:
        _respond(request, "from", to if is_known else own_party(request))
    if sent is not None and folded(sent) not in configuration.parties_of(sender_of(request).platform):
        raise Problem(
            404,
            "NotYours: the platform of the token does not act for the party that the request is from",
            2000,
        )
    if not is_known:
        raise Problem(200, "the party that the request is to is not known", UNKNOWN_RECEIVER)


def answered_by(request: Request, party: str) -> None:
    """The response to a request to the hub's own party is from this party."""
    if party_of_headers(request, "to") is not None and is_to_the_hub(request):
        headers = call_of(request).more_headers
        headers[:] = [header for header in headers if not header[0].startswith(b"ocpi-from-")]
        _respond(request, "from", party)


def _respond(request: Request, direction: str, party: str) -> None:
    country, _, party_id = party.partition("/")
    call_of(request).more_headers += [
        (f"ocpi-{direction}-country-code".encode(), country.encode("latin-1")),
        (f"ocpi-{direction}-party-id".encode(), party_id.encode("latin-1")),
    ]
