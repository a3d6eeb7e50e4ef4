"""What a sender reads under /clearing: statements, balances, exposure, holds, periods, refusals, the configuration."""

from __future__ import annotations

import time
from collections.abc import Iterable, Iterator, Sequence
from typing import Any

from fastapi import APIRouter, Query, Request
from starlette.responses import Response

from clear_service.answers import Answer
from clear_service.configuration import Configuration, written
from clear_service.house import House
from clear_service.lines import folded
from clear_service.owed import Pair
from clear_service.registers import CdrEntry, Hold
from clear_service.responses import (
    AMOUNT,
    FLAG,
    TEXT,
    WHOLE,
    Problem,
    answer_response,
    call_of,
    described,
    house_of,
    json_response,
    list_of,
    schema,
    sender_of,
)
from clear_service.rows import CSV, JSON, Rows, csv_pieces, json_pieces
from clear_service.senders import Sender

router = APIRouter(prefix="/clearing", tags=["Clearing"])

POSITION = schema({"currency": TEXT, "party": TEXT, "net": AMOUNT})
ROW = schema({"currency": TEXT, "counterpart": TEXT, "receivable": AMOUNT, "payable": AMOUNT, "net": AMOUNT})
CDR_COLUMNS = "currency operator provider id session_id start end energy amount credited period".split()
STATEMENT_COLUMNS = "currency counterpart receivable payable net".split()
BALANCE_COLUMNS = "period currency operator provider owed settled open".split()
BALANCE = schema(
    {
        "period": WHOLE,
        **{name: TEXT for name in ("currency", "operator", "provider")},
        **{name: AMOUNT for name in ("owed", "settled", "open")},
    }
)
EXPOSURE = schema(
    {"provider": TEXT, "currency": TEXT, "holds": AMOUNT, "debts": AMOUNT, "limit": AMOUNT},
)
HOLD = schema(
    {
        **{name: TEXT for name in ("reference", "operator", "provider", "currency")},
        "amount": AMOUNT,
        "since": {"type": ["string", "null"]},
        "age_seconds": WHOLE,
        "may_be_released": FLAG,
    }
)
MOST_HOURS = 24


class Sight:
    """What a sender may see: for a hub all, and for another platform what belongs to its parties."""

    def __init__(self, configuration: Configuration, sender: Sender) -> None:
        self._is_hub = configuration.is_hub(sender.platform)
        self._own = configuration.parties_of(sender.platform)

    def of(self, *parties: str) -> bool:
        """Whether the sender may see what belongs to these folded parties."""
        return self._is_hub or any(party in self._own for party in parties)


def reader_of(request: Request) -> tuple[House, Sender]:
    """The house and the sender. Raises Unavailable until the registers have all lines of the store."""
    house = house_of(request)
    assert house.configuration is not None
    return house, sender_of(request)


def sight_of(request: Request) -> tuple[House, Sight]:
    """The house, and what the sender may see."""
    house, sender = reader_of(request)
    return house, Sight(house.configuration, sender)


def list_response(
    request: Request, rows: Iterable[object | None], head: bytes = b"[", tail: bytes = b"]\n"
) -> Rows:
    """The rows as a JSON list."""
    turn = (house_of(request).reads, sender_of(request).digest)
    return Rows(turn, json_pieces(rows, head, tail), JSON)


def table(request: Request, columns: Sequence[str], rows: Iterable[Iterable[object] | None]) -> Rows:
    """The rows as CSV."""
    turn = (house_of(request).reads, sender_of(request).digest)
    return Rows(turn, csv_pieces(columns, rows), CSV)


def wants_csv(request: Request) -> bool:
    """Whether the client asks for CSV."""
    return "text/csv" in (call_of(request).header("accept") or "")


def party_of_path(text: str) -> str:
    """The party of `NL-CPA`, as `NL/CPA`. Raises Problem."""
    country, _, party = text.partition("-")
    if not country or not party:
        raise Problem(400, "a party in a path is written as NL-CPA")
    return f"{country}/{party}"


STATEMENT = schema(
    {
        "period": WHOLE,
        "party": TEXT,
        "rows": list_of(ROW),
        "status_code": WHOLE,
        "refusal": TEXT,
        "answer": TEXT,
    },
    *("period", "party", "rows", "status_code", "refusal", "answer"),
)
OF_STATEMENTS = described(STATEMENT, 400, 403, 404, 409)


@router.get("/statements/{period}/{party}", responses=OF_STATEMENTS)
async def get_statement(request: Request, period: str, party: str) -> Response:
    """The statement of a party in a closed period; as CSV with the header `Accept: text/csv`."""
    answer, spelled = await statement_of(request, period, party)
    if answer.is_refusal:
        return answer_response(answer)
    rows = answer.members["rows"]
    if wants_csv(request):
        return statement_table(request, rows)
    return json_response({"period": int(period), "party": spelled, "rows": rows})


@router.get("/statements/{period}/{party}/statement.csv", responses=described(CSV, 400, 403, 404, 409))
async def get_statement_csv(request: Request, period: str, party: str) -> Response:
    """The same as CSV, as `clear statements` writes it."""
    answer, _ = await statement_of(request, period, party)
    return answer_response(answer) if answer.is_refusal else statement_table(request, answer.members["rows"])


@router.get("/statements/{period}/{party}/cdrs.csv", responses=described(CSV, 400, 403, 404, 409))
async def get_statement_cdrs(request: Request, period: str, party: str) -> Response:
    """The CDRs and Credit CDRs of which the statement's rows are the sums."""
    answer, spelled = await statement_of(request, period, party)
    if answer.is_refusal:
        return answer_response(answer)
    return table(
        request, CDR_COLUMNS, map(cdr_row, house_of(request).registers.cdrs.of(int(period), spelled))
    )


async def statement_of(request: Request, period: str, party: str) -> tuple[Answer, str]:
    """The house's answer, and the party as it is configured."""
    if not period.isascii() or not period.isdigit() or len(period) > 18:
        raise Problem(400, "a period is a whole number")
    house = house_of(request)
    named = party_of_path(party)
    answer = await house.statement(sender_of(request), named, int(period))
    return answer, house.configuration.spelled(named) or named


def statement_table(request: Request, rows: list[dict[str, str]]) -> Response:
    """The rows of a statement as CSV."""
    return table(request, STATEMENT_COLUMNS, ([row[name] for name in STATEMENT_COLUMNS] for row in rows))


def cdr_row(entry: CdrEntry) -> list[object]:
    """A CDR's row; energy in kWh as it was posted."""
    return [
        entry.currency,
        entry.operator,
        entry.provider,
        entry.id,
        entry.session,
        entry.start,
        entry.end,
        entry.energy,
        entry.amount,
        "true" if entry.credited else "false",
        entry.period,
    ]


@router.get("/balances", responses=described(list_of(BALANCE), 403))
async def get_balances(request: Request) -> Response:
    """What is owed, settled and open: all of it for a hub, and for another platform the rows of its parties.

    A settlement settles all that is owed of its provider, currency and period, Credit CDRs included. As CSV with
    the header `Accept: text/csv`.
    """
    house, sight = sight_of(request)
    rows = balance_rows(house, sight)
    if wants_csv(request):
        return table(request, BALANCE_COLUMNS, rows)
    named = (None if row is None else dict(zip(BALANCE_COLUMNS, row)) for row in rows)
    return list_response(request, named)


def balance_rows(house: House, sight: Sight) -> Iterator[list[object] | None]:
    """The rows in the order of `clear balances`; None for one that the sender may not see."""
    configuration = house.configuration
    places = configuration.places

    def place(pair: Pair) -> tuple[int, int]:
        return places[pair.operator], places[pair.provider]

    for each in house.registers.balances.rows(configuration.currencies, place):
        if not sight.of(*each.pair):
            yield None
            continue
        parties = [configuration.spelled(party) for party in each.pair]
        amounts = [written(amount) for amount in (each.owed, each.settled, each.owed - each.settled)]
        yield [each.period, each.currency, *parties, *amounts]


@router.get("/exposure", responses=described(list_of(EXPOSURE), 403, 404, 422))
async def get_exposure(
    request: Request, provider: str | None = None, currency: str | None = None
) -> Response:
    """Holds, debts and limit of a provider in a currency; without these parameters of all that the sender may read."""
    house, sender = house_of(request), sender_of(request)
    configuration = house.configuration
    providers = (
        [provider] if provider else [p for p in configuration.providers.values() if house.may_read(sender, p)]
    )
    found = []
    for each in providers:
        for money in [currency] if currency else configuration.currencies:
            answer = await house.exposure(sender, each, money)
            if answer.is_refusal:
                return answer_response(answer)
            amounts = {name: answer.members[name] for name in ("holds", "debts", "limit")}
            found.append({"provider": configuration.spelled(each) or each, "currency": money, **amounts})
    return json_response(found)


@router.get("/holds", responses=described(list_of(HOLD)))
async def get_holds(request: Request) -> Response:
    """Open holds, the oldest first: all of them for a hub, and for another platform those of its parties."""
    house, sight = sight_of(request)
    holds = list(house.registers.holds.values())
    return list_response(request, (shown_hold(house, sight, hold) for hold in holds))


def shown_hold(house: House, sight: Sight, hold: Hold) -> dict[str, object] | None:
    """A hold as the endpoints show it; None if the sender may not see it."""
    if not sight.of(folded(hold.operator), folded(hold.provider)):
        return None
    return hold_members(house, hold)


def age_of(house: House, hold: Hold) -> int:
    """For how many seconds the hold is open. If that is not known, it counts from the start of the service."""
    return max(0, int(time.time() - (house.began if hold.since is None else hold.since)))


def hold_members(house: House, hold: Hold) -> dict[str, object]:
    """A hold as the endpoints show it."""
    since = None if hold.since is None else time.strftime("%Y-%m-%dT%H:%M:%SZ", time.gmtime(hold.since))
    names = ("reference", "operator", "provider", "currency", "amount")
    age = age_of(house, hold)
    shown: dict[str, object] = {name: getattr(hold, name) for name in names}
    return {
        **shown,
        "since": since,
        "age_seconds": age,
        "may_be_released": age >= house.settings.hold_seconds,
    }


PERIODS = schema(
    {
        "current": WHOLE,
        "closed": list_of(schema({"period": WHOLE, "positions": list_of(POSITION)})),
    }
)


@router.get("/periods", responses=described(PERIODS))
async def get_periods(request: Request) -> Response:
    """The current period, and the closed ones with their positions: for a hub all, and for another platform its own."""
    house, sight = sight_of(request)
    closed = list(house.registers.periods)
    rows = (
        {
            "period": each.period,
            "positions": [row for row in each.positions if sight.of(folded(row["party"]))],
        }
        for each in closed
    )
    return list_response(request, rows, b'{"current":%d,"closed":[' % len(closed), b"]}\n")


@router.get(
    "/refusals", responses=described(list_of(schema({"platform": TEXT, "name": TEXT, "count": WHOLE})))
)
async def get_refusals(request: Request, hours: int = Query(MOST_HOURS, ge=0, le=MOST_HOURS)) -> Response:
    """Refusals and declined authorisations of the last hours by platform and name, as far as the service saw them."""
    house, sender = reader_of(request)
    since = time.time() - 3600 * hours
    own = None if house.configuration.is_hub(sender.platform) else folded(sender.platform)
    counts: dict[tuple[str, str], int] = {}
    for each in house.registers.refusals:
        if each.time >= since and (own is None or folded(each.platform) == own):
            counts[(each.platform, each.name)] = counts.get((each.platform, each.name), 0) + 1
    rows = [{"platform": key[0], "name": key[1], "count": count} for key, count in sorted(counts.items())]
    return list_response(request, rows)


@router.get("/configuration", responses=described({"type": "object"}, 403))
async def get_configuration(request: Request) -> Response:
    """The configuration in force, for a hub."""
    house, sender = reader_of(request)
    if not house.configuration.is_hub(sender.platform):
        raise Problem(403, "only a hub reads the configuration")
    return json_response(house.configuration.members)
