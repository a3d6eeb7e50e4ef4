"""A plain reading of the rules of docs/RULES.md and docs/FORMATS.md alone: over one list of events, each sum taken anew over the
whole list. Of a tariff it rates ENERGY and FLAT, of elements that are not for reservations.
"""
from __future__ import annotations

import datetime
import json
import re
from collections.abc import Callable
from typing import Any, Literal, NoReturn, NotRequired, TypeAlias, TypedDict, TypeVar, overload

NUMBERS = {
    name: number
    for number, name in enumerate(
        "Syntax Field UnknownParty NotYours WrongCurrency BadDates TariffNotGiven UnsupportedRestriction Reservation EnergyMismatch "
        "AmountTooLarge CostMismatch Conflict TariffNotRegistered UnknownToken UnknownHold UnknownOriginal CreditOfCredit "
        "AlreadyCredited CreditDiffers NotCurrent PeriodOpen AlreadySettled UnknownCdr Full OverLimit NoMemory TooLate".split(),
        1,
    )
}
ANSWERS = (
    "Stored Unchanged ALLOWED BLOCKED NO_CREDIT Released Accepted Repeated Closed Settled Exposure Found Statement"
).split()
STATUS = {"Syntax": 2001, "Field": 2001, "UnknownToken": 2004, "Full": 3000}

T = TypeVar("T")
Json: TypeAlias = Any  # any JSON value; the numbers of a line are Number
Kind: TypeAlias = Callable[[Json], T | None]  # reads a member; None if the value is not of the kind
Values: TypeAlias = dict[str, Json]  # the members of an answer after its name and place
Answered: TypeAlias = tuple[str, Values]


# ---- What is read of a line. Numbers are in millionths, moments in nanoseconds, parties and ids in lowercase. ----


class Token(TypedDict):
    party: str
    uid: str
    type: str
    valid: bool


class CdrToken(TypedDict):
    party: str
    uid: str
    type: str
    contract: str


class Component(TypedDict):
    type: str
    price: int
    step: int


class Restrictions(TypedDict):
    reservation: str | None
    bounds: list[bool]  # whether each of BOUNDS is there


class Element(TypedDict):
    components: list[Component]
    restrictions: Restrictions | None


class Tariff(TypedDict):
    party: str
    id: str
    currency: str
    min: int | None
    max: int | None
    elements: list[Element]
    updated: int


class Dimension(TypedDict):
    type: str
    volume: int


class Period(TypedDict):
    start: int
    dimensions: list[Dimension]
    tariff: str | None


class Cdr(TypedDict):
    party: str
    id: str
    start: int
    end: int
    token: CdrToken
    method: str
    hold: str  # empty if it has no authorization_reference
    currency: str
    tariffs: list[Tariff]
    periods: list[Period]
    cost: int
    energy: int
    time: int
    credit: bool
    original: str  # empty if it is no Credit CDR
    updated: int


class Request(TypedDict, total=False):
    """A request: `platform`, `do`, and the members of the command."""

    platform: str
    do: str
    tariff: Tariff
    token: Token
    cdr: Cdr
    operator: str
    provider: str
    party: str
    uid: str
    type: str | None
    currency: str
    reference: str
    id: str
    period: int


class Event(TypedDict, total=False):
    """An event: its kind, and the values of that kind; `amount` is in ten-thousandths."""

    kind: str
    operator: str
    provider: str
    currency: str
    tariff: Tariff
    uid: str
    type: str
    valid: bool
    amount: int
    reference: str  # of a CDR empty if it uses no hold
    written: str  # in streams.py alone: the reference as it is answered
    id: str
    cdr: Cdr
    original: str
    period: int
    settles: int


# ---- A configuration ----


class LimitRow(TypedDict):
    currency: str
    limit: int
    hold: int


class Operator(TypedDict):
    party: str
    zone: str


class Provider(TypedDict):
    party: str
    limits: NotRequired[list[LimitRow]]


class Platform(TypedDict):
    name: str
    parties: NotRequired[list[str]]
    hub: NotRequired[bool]


class PairLimit(TypedDict):
    operator: str
    provider: str
    currency: str
    limit: int


class Config(TypedDict):
    version: int
    tolerance: NotRequired[int]
    currencies: list[str]
    operators: list[Operator]
    providers: list[Provider]
    platforms: list[Platform]
    limits: NotRequired[dict[str, int]]
    pair_limits: NotRequired[list[PairLimit]]
    credit_window: NotRequired[int]


NOBODY: Platform = {"name": ""}
Count: TypeAlias = tuple[str, int, str]  # what is counted, how many there are, and the name of the limit


class Refused(Exception):
    """A refusal with its values; those of the house itself carry `at`."""

    def __init__(self, name: str, **values: Json) -> None:
        super().__init__(name)
        self.name, self.values = name, values
        self.path: list[str | int] = []  # in causes.py alone: the path of the member, the last step first


class Number(str):
    """A number's text, as it is written."""


def compact(value: Json) -> str:
    return json.dumps(value, separators=(",", ":"))


def money(amount: int) -> str:
    sign, size = "-" if amount < 0 else "", abs(amount)
    return f"{sign}{size // 10000}.{size % 10000:04}"


# ---- Members of a line, in the order in which they are tested ----


def fold(text: str) -> str:
    return text.lower()


@overload
def member(kind: Kind[T], name: str, of: Json) -> T:
    ...


@overload
def member(kind: Kind[T], name: str, of: Json, optional: bool) -> T | None:
    ...


def member(kind: Kind[T], name: str, of: Json, optional: bool = False) -> T | None:
    """The member `name` of the object `of`, by its kind; a kind gives None for a value that is not of it."""
    value = of.get(name)
    if value is None and optional:
        return None
    read = None if value is None else kind(value)
    if read is None:
        raise Refused("Field", field=name)
    return read


def text(value: Json) -> str | None:
    return value if type(value) is str else None


def ci(most: int) -> Kind[str]:
    return (
        lambda v: v
        if text(v) is not None and 1 <= len(v) <= most and all(32 <= ord(c) <= 126 for c in v)
        else None
    )


def spelled(pattern: str) -> Kind[str]:
    return lambda v: v if text(v) is not None and re.fullmatch(pattern, v, re.ASCII) else None


def word(*words: str) -> Kind[str]:
    return lambda v: v if text(v) in words else None


def flag(value: Json) -> bool | None:
    return value if type(value) is bool else None


def whole(most: int) -> Kind[int]:
    return (
        lambda v: int(v) if type(v) is Number and re.fullmatch("[0-9]{1,18}", v) and int(v) <= most else None
    )


def number(value: Json) -> int | None:
    """In whole millionths, rounded half away from zero."""
    if type(value) is not Number or not re.fullmatch(r"-?[0-9]{1,9}(\.[0-9]{1,30})?", value):
        return None
    before, _, after = value.lstrip("-").partition(".")
    size: int = (2 * int(before + after) * 10**6 + 10 ** len(after)) // (2 * 10 ** len(after))
    return -size if value.startswith("-") else size


def num0(value: Json) -> int | None:
    read = number(value)
    return None if read is None or read < 0 else read


def moment(value: Json) -> int | None:
    """In nanoseconds."""
    form = r"(\d{4})-(\d\d)-(\d\d)T(\d\d):(\d\d):(\d\d)(?:\.(\d{1,9}))?(?:Z|\+00:00)?"
    found = text(value) is not None and re.fullmatch(form, value, re.ASCII)
    if not found:
        return None
    year, month, day, hour, minute, second = map(int, found.groups()[:6])
    try:
        days = datetime.date(year, month, day).toordinal()
    except ValueError:
        return None
    if hour > 23 or minute > 59 or second > 59:
        return None
    return (((days * 24 + hour) * 60 + minute) * 60 + second) * 10**9 + int((found[7] or "").ljust(9, "0"))


def object_of(read: Callable[[Json], T]) -> Kind[T]:
    """A member that is an object; one that is none names itself, and an item of a list its first member."""
    return lambda v: read(v) if type(v) is dict else None


def items(least: int, most: int, first: str, read: Callable[[Json], T]) -> Kind[list[T]]:
    def read_item(value: Json) -> T:
        if type(value) is not dict:
            member(text, first, {})
        return read(value)

    def read_all(value: Json) -> list[T] | None:
        if type(value) is not list or not least <= len(value) <= most:
            return None
        return [read_item(it) for it in value]

    return read_all


CUR = spelled("[A-Z]{3}")
PARTY = spelled("[A-Za-z]{2}/[A-Za-z0-9]{3}")
TOKEN_TYPE = word("AD_HOC_USER", "APP_USER", "OTHER", "RFID")
BOUNDS = ("min_current", "max_current", "min_power", "max_power")
COUNTED = ("ENERGY", "TIME", "PARKING_TIME", "RESERVATION_TIME")


def party_of(v: Json) -> str:
    return fold(member(ci(2), "country_code", v) + "/" + member(ci(3), "party_id", v))


def token_of(v: Json) -> Token:
    party, uid = party_of(v), fold(member(ci(36), "uid", v))
    kind, _ = member(TOKEN_TYPE, "type", v), member(ci(36), "contract_id", v)
    token: Token = {"party": party, "uid": uid, "type": kind, "valid": member(flag, "valid", v)}
    member(text, "whitelist", v)
    member(moment, "last_updated", v)
    return token


def cdr_token_of(v: Json) -> CdrToken:
    return {
        "party": party_of(v),
        "uid": fold(member(ci(36), "uid", v)),
        "type": member(TOKEN_TYPE, "type", v),
        "contract": fold(member(ci(36), "contract_id", v)),
    }


def price_of(v: Json) -> int:
    return member(num0, "excl_vat", v)


def cost_of(v: Json) -> int:
    return member(number, "excl_vat", v)


def component_of(v: Json) -> Component:
    return {
        "type": member(word("ENERGY", "FLAT", "TIME", "PARKING_TIME"), "type", v),
        "price": member(num0, "price", v),
        "step": member(whole(10**9), "step_size", v),
    }


def restrictions_of(v: Json) -> Restrictions:
    return {
        "reservation": member(text, "reservation", v, True),
        "bounds": [member(number, name, v, True) is not None for name in BOUNDS],
    }


def element_of(v: Json) -> Element:
    return {
        "components": member(items(1, 16, "type", component_of), "price_components", v),
        "restrictions": member(object_of(restrictions_of), "restrictions", v, True),
    }


def tariff_of(v: Json) -> Tariff:
    return {
        "party": party_of(v),
        "id": fold(member(ci(36), "id", v)),
        "currency": member(CUR, "currency", v),
        "min": member(object_of(price_of), "min_price", v, True),
        "max": member(object_of(price_of), "max_price", v, True),
        "elements": member(items(1, 100, "price_components", element_of), "elements", v),
        "updated": member(moment, "last_updated", v),
    }


def dimension_of(v: Json) -> Dimension:
    return {"type": member(text, "type", v), "volume": member(number, "volume", v)}


def period_of(v: Json) -> Period:
    return {
        "start": member(moment, "start_date_time", v),
        "dimensions": member(items(1, 100, "type", dimension_of), "dimensions", v),
        "tariff": (tariff := member(ci(36), "tariff_id", v, True)) and fold(tariff),
    }


def cdr_of(v: Json) -> Cdr:
    cdr: Cdr = {
        "party": party_of(v),
        "id": member(ci(39), "id", v),
        "start": member(moment, "start_date_time", v),
        "end": member(moment, "end_date_time", v),
        "token": member(object_of(cdr_token_of), "cdr_token", v),
        "method": member(word("AUTH_REQUEST", "COMMAND", "WHITELIST"), "auth_method", v),
        "hold": fold(member(ci(36), "authorization_reference", v, True) or ""),
        "currency": member(CUR, "currency", v),
        "tariffs": member(items(0, 10, "country_code", tariff_of), "tariffs", v, True) or [],
        "periods": member(items(1, 1000, "start_date_time", period_of), "charging_periods", v),
        "cost": member(object_of(cost_of), "total_cost", v),
        "energy": member(number, "total_energy", v),
        "time": member(number, "total_time", v),
        "credit": (credit := member(flag, "credit", v, True) or False),
        "original": fold(member(ci(39), "credit_reference_id", v)) if credit else "",
        "updated": member(moment, "last_updated", v),
    }
    if not credit:
        dimensions = [d for p in cdr["periods"] for d in p["dimensions"]]
        for fault, field in (
            (len(cdr["id"]) > 36, "id"),
            (any(d["volume"] < 0 for d in dimensions if d["type"] in COUNTED), "volume"),
            (cdr["energy"] < 0, "total_energy"),
        ):
            if fault:
                raise Refused("Field", field=field)
    cdr["id"] = fold(cdr["id"])
    return cdr


Name: TypeAlias = Literal[
    "tariff",
    "token",
    "cdr",
    "operator",
    "provider",
    "party",
    "uid",
    "type",
    "currency",
    "reference",
    "id",
    "period",
]
MEMBERS: dict[str, list[tuple[Name, Kind[Json]]]] = {
    "put_tariff": [("tariff", object_of(tariff_of))],
    "put_token": [("token", object_of(token_of))],
    "authorize": [
        ("operator", PARTY),
        ("provider", PARTY),
        ("uid", ci(36)),
        ("type", TOKEN_TYPE),
        ("currency", CUR),
    ],
    "release": [("operator", PARTY), ("provider", PARTY), ("reference", ci(36))],
    "post": [("cdr", object_of(cdr_of))],
    "close": [("period", whole(10**18))],
    "settle": [("provider", PARTY), ("currency", CUR), ("period", whole(10**18))],
    "exposure": [("provider", PARTY), ("currency", CUR)],
    "find": [("operator", PARTY), ("id", ci(39))],
    "statement": [("party", PARTY), ("period", whole(10**18))],
}
OPTIONAL = ("type",)
FOLDED = ("operator", "provider", "party", "uid", "reference", "id")


def no_number(constant: str) -> NoReturn:
    raise ValueError(constant)


def request_of(line: str) -> Request:
    try:
        value: Json = json.loads(line, parse_int=Number, parse_float=Number, parse_constant=no_number)
    except ValueError:
        raise Refused("Syntax") from None
    value = value if type(value) is dict else {}
    request: Request = {
        "platform": fold(member(ci(36), "platform", value)),
        "do": member(word(*MEMBERS), "do", value),
    }
    for name, kind in MEMBERS[request["do"]]:
        read: Json = member(kind, name, value, name in OPTIONAL)
        request[name] = fold(read) if name in FOLDED else read
    return request


# ---- What a CDR costs ----


def active(tariff: Tariff | None, kind: str) -> Component | None:
    """The component of the first element that has the kind; an element for reservations never matches."""
    for element in tariff["elements"] if tariff else []:
        if not (element["restrictions"] and element["restrictions"]["reservation"] is not None):
            for component in element["components"]:
                if component["type"] == kind:
                    return component
    return None


def price(cdr: Cdr) -> int:
    """In ten-thousandths; the sum is exact, in millionths of a millionth."""
    tariffs = [next((t for t in cdr["tariffs"] if t["id"] == p["tariff"]), None) for p in cdr["periods"]]
    total = energy = 0
    last: Component | None = None
    for period, tariff in zip(cdr["periods"], tariffs):
        volume = sum(d["volume"] for d in period["dimensions"] if d["type"] == "ENERGY")
        component = active(tariff, "ENERGY")
        if component and volume > 0:
            total, energy, last = total + component["price"] * volume, energy + volume, component
    if last and last["step"]:
        total += last["price"] * (-energy % (1000 * last["step"]))
    flat = active(tariffs[0], "FLAT")
    total += 10**6 * flat["price"] if flat else 0
    if tariffs[0]:
        low, high = tariffs[0]["min"], tariffs[0]["max"]
        total = total if low is None else max(total, low * 10**6)
        total = total if high is None else min(total, high * 10**6)
    return (2 * total + 10**8) // (2 * 10**8)


# ---- The house: one list of events ----

OF_HOLD: tuple[Literal["operator", "provider", "reference"], ...] = ("operator", "provider", "reference")


def is_open(hold: Event, later: list[Event]) -> bool:
    """No later release, and no later CDR in its currency, of the hold's operator, provider and reference."""
    ends = [e for e in later if e["kind"] in ("Released", "Cdr") and all(e[k] == hold[k] for k in OF_HOLD)]
    return all(e["kind"] == "Cdr" and e["currency"] != hold["currency"] for e in ends)


class House:
    def __init__(self, config: Config) -> None:
        self.config = config
        self.events: list[Event] = []
        self.operators = [o["party"] for o in config["operators"]]
        self.providers = [p["party"] for p in config["providers"]]
        self.written = {fold(it): it for it in self.providers + self.operators}
        operators = [fold(o) for o in self.operators]
        self.parties = operators + [fold(p) for p in self.providers if fold(p) not in operators]
        most = {"cdrs": 100000, "tariffs": 10000, "entries": 10**7, "order": 10**7, "periods": 10000}
        self.most = most | config.get("limits", {})

    def answer(self, line: str) -> str:
        try:
            request = request_of(line)
            self.admit(request)
            at = len(self.events)
            try:
                name, values = self.done(request)
                return compact({"status_code": 1000, "answer": name, "at": at} | values)
            except Refused as refusal:
                refusal.values = {"at": at} | refusal.values
                raise
        except Refused as refusal:
            return compact(
                {
                    "status_code": STATUS.get(refusal.name, 2000),
                    "refusal": refusal.name,
                    "number": NUMBERS[refusal.name],
                }
                | refusal.values
            )

    # Tests of the line and the configuration.

    def named(self, r: Request) -> list[tuple[str, set[str]]]:
        """The parties that a request names, the acting one first, each with those that are known."""
        operators, providers = set(map(fold, self.operators)), set(map(fold, self.providers))
        if "tariff" in r:
            return [(r["tariff"]["party"], operators)]
        if "token" in r:
            return [(r["token"]["party"], providers)]
        if "cdr" in r:
            return [(r["cdr"]["party"], operators), (r["cdr"]["token"]["party"], providers)]
        if "party" in r:
            return [(r["party"], operators | providers)]
        named = [(r["operator"], operators)] if "operator" in r else []
        return named + ([(r["provider"], providers)] if "provider" in r else [])

    def admit(self, r: Request) -> None:
        do, named = r["do"], self.named(r)
        if any(party not in known for party, known in named):
            raise Refused("UnknownParty")
        platform = next((p for p in self.config["platforms"] if fold(p["name"]) == r["platform"]), NOBODY)
        if do in ("close", "settle"):
            is_theirs = platform.get("hub", False)
        else:
            is_theirs = named[0][0] in map(fold, platform.get("parties", []))
        if not is_theirs:
            raise Refused("NotYours")
        priced = r.get("tariff") or r.get("cdr") or r
        if do not in ("put_token", "release", "close", "find", "statement"):
            if priced["currency"] not in self.config["currencies"]:
                raise Refused("WrongCurrency")
        if do == "put_tariff":
            self.supported(r["tariff"])
        if do == "post" and not r["cdr"]["credit"]:
            self.check(r["cdr"])

    def supported(self, tariff: Tariff) -> None:
        if any(e["restrictions"] and any(e["restrictions"]["bounds"]) for e in tariff["elements"]):
            raise Refused("UnsupportedRestriction")

    def check(self, cdr: Cdr) -> None:
        if any(t["currency"] != cdr["currency"] for t in cdr["tariffs"]):
            raise Refused("WrongCurrency")
        starts = [cdr["start"]] + [p["start"] for p in cdr["periods"]]
        if starts != sorted(starts) or starts[-1] > cdr["end"] or cdr["end"] < cdr["start"]:
            raise Refused("BadDates")
        if any(p["tariff"] and p["tariff"] not in [t["id"] for t in cdr["tariffs"]] for p in cdr["periods"]):
            raise Refused("TariffNotGiven")
        for tariff in cdr["tariffs"]:
            self.supported(tariff)
        volumes = [(d["type"], d["volume"]) for p in cdr["periods"] for d in p["dimensions"]]
        if any(kind == "RESERVATION_TIME" and volume > 0 for kind, volume in volumes):
            raise Refused("Reservation")
        if abs(cdr["energy"] - sum(volume for kind, volume in volumes if kind == "ENERGY")) > 10000:
            raise Refused("EnergyMismatch")
        amount = price(cdr)
        if amount > 10**12:
            raise Refused("AmountTooLarge")
        if abs(cdr["cost"] - 100 * amount) > 100 * self.config.get("tolerance", 100):
            raise Refused("CostMismatch", rated=money(amount))

    # Sums over the events. An event is its kind and its values.

    def all(self, kinds: str, **values: object) -> list[Event]:
        return [
            e
            for e in self.events
            if e["kind"] in kinds.split() and all(e.get(k) == v for k, v in values.items())
        ]

    def current(self) -> int:
        return len(self.all("Closed"))

    def billed(self, **values: object) -> list[Event]:
        return self.all("Cdr Credit", **values)

    def sums(
        self, provider: str, currency: str, operator: str | None = None, added: Event | None = None
    ) -> tuple[int, int]:
        """Holds and debts, of the CDRs and authorisations of the operator alone where there is one."""
        events = self.events + ([added] if added else [])
        holds = debts = 0
        for i, e in enumerate(events):
            if (
                e.get("provider") != provider
                or e.get("currency") != currency
                or operator not in (None, e.get("operator"))
            ):
                continue
            if e["kind"] == "Authorised":
                holds += e["amount"] if is_open(e, events[i + 1 :]) else 0
            if e["kind"] == "Cdr":
                credited = any(
                    x["kind"] == "Credit" and x["operator"] == e["operator"] and x["original"] == e["id"]
                    for x in events
                )
                settled = any(
                    x["kind"] == "Settled"
                    and x["provider"] == provider
                    and x["currency"] == currency
                    and x["settles"] == e["period"]
                    for x in events
                )
                debts += 0 if credited or settled else e["amount"]
        return holds, debts

    def full(self, *counts: Count) -> None:
        for name, count, limit in counts + (("Order", len(self.events), "order"),):
            if count >= self.most[limit]:
                raise Refused("Full", what=name)

    def account(self, provider: str) -> Count:
        entries = self.all("Token Authorised Released Cdr Credit Settled", provider=provider)
        return "Account", len(entries), "entries"

    def row(self, provider: str, currency: str) -> LimitRow:
        of_it = next(p for p in self.config["providers"] if fold(p["party"]) == provider)
        none: LimitRow = {"currency": currency, "limit": 0, "hold": 1}
        return next((x for x in of_it.get("limits", []) if x["currency"] == currency), none)

    def pair_limit(self, operator: str, provider: str, currency: str) -> int | None:
        rows = self.config.get("pair_limits", []) if self.config["version"] == 2 else []
        key = (operator, provider, currency)
        return next(
            (x["limit"] for x in rows if (fold(x["operator"]), fold(x["provider"]), x["currency"]) == key),
            None,
        )

    # The commands.

    def done(self, r: Request) -> Answered:
        command: Callable[[Request], Answered] = getattr(self, r["do"])
        return command(r)

    def put_tariff(self, r: Request) -> Answered:
        tariff = r["tariff"]
        operator = tariff["party"]
        stored = [e["tariff"] for e in self.all("Tariff", operator=operator)]
        for version in stored:
            if (version["id"], version["updated"]) == (tariff["id"], tariff["updated"]):
                if version == tariff:
                    return "Unchanged", {}
                raise Refused("Conflict")
        self.full(("Tariffs", len(stored), "tariffs"))
        self.events.append({"kind": "Tariff", "operator": operator, "tariff": tariff})
        return "Stored", {}

    def put_token(self, r: Request) -> Answered:
        token = r["token"]
        self.full(self.account(token["party"]))
        party, uid, kind = token["party"], token["uid"], token["type"]
        self.events.append(
            {"kind": "Token", "provider": party, "uid": uid, "type": kind, "valid": token["valid"]}
        )
        return "Stored", {}

    def authorize(self, r: Request) -> Answered:
        operator, provider, currency = r["operator"], r["provider"], r["currency"]
        tokens = self.all("Token", provider=provider, uid=r["uid"], type=r["type"] or "RFID")
        if not tokens:
            raise Refused("UnknownToken")
        if not tokens[-1]["valid"]:
            return "BLOCKED", {}
        self.full(self.account(provider))
        row, pair = self.row(provider, currency), self.pair_limit(operator, provider, currency)
        if sum(self.sums(provider, currency)) + row["hold"] > row["limit"]:
            return "NO_CREDIT", {}
        if pair is not None and sum(self.sums(provider, currency, operator)) + row["hold"] > pair:
            return "NO_CREDIT", {}
        name = next(p for p in self.providers if fold(p) == provider).replace("/", "")
        reference = f'{name}-{len(self.all("Authorised", provider=provider)) + 1}'
        self.events.append(
            {
                "kind": "Authorised",
                "operator": operator,
                "provider": provider,
                "currency": currency,
                "amount": row["hold"],
                "reference": fold(reference),
            }
        )
        return "ALLOWED", {"authorization_reference": reference}

    def release(self, r: Request) -> Answered:
        operator, provider, reference = r["operator"], r["provider"], r["reference"]
        for hold in self.all("Authorised", operator=operator, provider=provider, reference=reference):
            if is_open(hold, self.events[self.events.index(hold) + 1 :]):
                self.full(self.account(provider))
                self.events.append(
                    {"kind": "Released", "operator": operator, "provider": provider, "reference": reference}
                )
                return "Released", {"amount": money(hold["amount"])}
        raise Refused("UnknownHold")

    def post(self, r: Request) -> Answered:
        cdr = r["cdr"]
        operator, provider, currency = cdr["party"], cdr["token"]["party"], cdr["currency"]
        for known in self.billed(operator=operator, id=cdr["id"]):
            if known["cdr"] == cdr:
                return "Repeated", {"amount": money(known["amount"]), "period": known["period"]}
            raise Refused("Conflict")
        event: Event = {
            "kind": "Cdr",
            "operator": operator,
            "provider": provider,
            "currency": currency,
            "id": cdr["id"],
            "cdr": cdr,
            "reference": cdr["hold"],
            "period": self.current(),
        }
        room = (("Cdrs", len(self.billed(operator=operator)), "cdrs"), self.account(provider))
        if cdr["credit"]:
            event |= Event(
                kind="Credit", original=cdr["original"], amount=self.credited_amount(cdr), reference=""
            )
            self.full(*room)
        else:
            stored = [e["tariff"] for e in self.all("Tariff", operator=operator)]
            if any(t not in stored for t in cdr["tariffs"]):
                raise Refused("TariffNotRegistered")
            event["amount"] = price(cdr)
            self.full(*room)
            self.check_limits(event)
        self.events.append(event)
        return "Accepted", {"amount": money(event["amount"]), "period": event["period"]}

    def check_limits(self, event: Event) -> None:
        operator, provider, currency = event["operator"], event["provider"], event["currency"]
        limits: list[tuple[int | None, str | None, Values]] = [
            (self.row(provider, currency)["limit"], None, {}),
            (self.pair_limit(operator, provider, currency), operator, {"scope": "pair"}),
        ]
        for limit, of, scope in limits:
            exposure = sum(self.sums(provider, currency, of, event))
            if limit is not None and exposure > limit:
                raise Refused("OverLimit", exposure=money(exposure), limit=money(limit), **scope)

    def credited_amount(self, cdr: Cdr) -> int:
        originals = self.billed(operator=cdr["party"], id=cdr["original"])
        if not originals:
            raise Refused("UnknownOriginal")
        original = originals[0]
        if original["kind"] == "Credit":
            raise Refused("CreditOfCredit")
        if self.all("Credit", operator=cdr["party"], original=cdr["original"]):
            raise Refused("AlreadyCredited")
        window = self.config.get("credit_window") if self.config["version"] == 2 else None
        if window is not None and self.current() > original["period"] + window:
            raise Refused("TooLate", original=original["period"], current=self.current())
        near = abs(cdr["cost"] + 100 * original["amount"]) <= 100 * self.config.get("tolerance", 100)
        same = (original["provider"], original["currency"]) == (cdr["token"]["party"], cdr["currency"])
        if not same or not near or cdr["cost"] > 0:
            raise Refused("CreditDiffers")
        return -original["amount"]

    def close(self, r: Request) -> Answered:
        current = self.current()
        if r["period"] != current:
            raise Refused("NotCurrent", current=current)
        self.full()
        if current >= self.most["periods"]:
            raise Refused("Full", what="Periods")
        positions = []
        for currency in self.config["currencies"]:
            for party in self.parties:
                of_it = self.billed(period=current, currency=currency)
                receivable = sum(e["amount"] for e in of_it if e["operator"] == party)
                payable = sum(e["amount"] for e in of_it if e["provider"] == party)
                positions.append(
                    {"currency": currency, "party": self.written[party], "net": money(receivable - payable)}
                )
        self.events.append({"kind": "Closed"})
        return "Closed", {"period": current, "positions": positions}

    def settle(self, r: Request) -> Answered:
        provider, currency, period = r["provider"], r["currency"], r["period"]
        if period >= self.current():
            raise Refused("PeriodOpen")
        if self.all("Settled", provider=provider, currency=currency, settles=period):
            raise Refused("AlreadySettled")
        self.full(self.account(provider))
        before = self.sums(provider, currency)[1]
        self.events.append({"kind": "Settled", "provider": provider, "currency": currency, "settles": period})
        return "Settled", {"amount": money(before - self.sums(provider, currency)[1])}

    def exposure(self, r: Request) -> Answered:
        holds, debts = self.sums(r["provider"], r["currency"])
        limit = self.row(r["provider"], r["currency"])["limit"]
        return "Exposure", {"holds": money(holds), "debts": money(debts), "limit": money(limit)}

    def find(self, r: Request) -> Answered:
        for e in self.billed(operator=r["operator"], id=r["id"]):
            credited = bool(self.all("Credit", operator=r["operator"], original=r["id"]))
            return "Found", {"amount": money(e["amount"]), "period": e["period"], "credited": credited}
        raise Refused("UnknownCdr")

    def statement(self, r: Request) -> Answered:
        party, period = r["party"], r["period"]
        if period >= self.current():
            raise Refused("PeriodOpen")
        rows: list[Values] = []
        for currency in sorted(self.config["currencies"]):
            for other in sorted(self.parties):
                owed = [
                    e["amount"]
                    for e in self.billed(period=period, currency=currency, operator=party, provider=other)
                ]
                owes = [
                    e["amount"]
                    for e in self.billed(period=period, currency=currency, operator=other, provider=party)
                ]
                if owed or owes:
                    rows.append(
                        {
                            "currency": currency,
                            "counterpart": self.written[other],
                            "receivable": money(sum(owed)),
                            "payable": money(sum(owes)),
                            "net": money(sum(owed) - sum(owes)),
                        }
                    )
        return "Statement", {"rows": rows}
