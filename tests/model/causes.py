"""Where a refused line is at fault, and why, by docs/FORMATS.md alone (the program explain_lines): over the lines that added the events
of a plain house, each looked through from the first.
"""
from __future__ import annotations

import datetime
import json
from collections.abc import Callable
from typing import NamedTuple, TypeAlias, overload

import rules
from rules import BOUNDS, COUNTED, OF_HOLD, Event, House, Json, Kind, Number, Refused, Restrictions, T
from rules import fold, money, no_number, request_of

PLAIN_MEMBER, PLAIN_RESTRICTIONS = rules.member, rules.restrictions_of

Path: TypeAlias = list[str | int]  # names of members and indices of lists


class Row(NamedTuple):
    """The columns of a row after the refusal's name."""

    place: str
    cause: str
    found: str
    against: str
    event: str


# ---- A member at fault ----


@overload
def member(kind: Kind[T], name: str, of: Json) -> T:
    ...


@overload
def member(kind: Kind[T], name: str, of: Json, optional: bool) -> T | None:
    ...


def member(kind: Kind[T], name: str, of: Json, optional: bool = False) -> T | None:
    """As in rules, but a refusal keeps its path, the first step last."""
    try:
        return PLAIN_MEMBER(kind, name, of, optional)
    except Refused as refused:
        refused.path = [*refused.path, name]
        raise


def items(least: int, most: int, first: str, read: Callable[[Json], T]) -> Kind[list[T]]:
    def read_item(index: int, value: Json) -> T:
        try:
            if type(value) is not dict:
                member(rules.text, first, {})
            return read(value)
        except Refused as refused:
            refused.path = [*refused.path, index]
            raise

    def read_all(value: Json) -> list[T] | None:
        if type(value) is not list or not least <= len(value) <= most:
            return None
        return [read_item(index, item) for index, item in enumerate(value)]

    return read_all


DAYS = "MONDAY TUESDAY WEDNESDAY THURSDAY FRIDAY SATURDAY SUNDAY".split()


def date(value: Json) -> datetime.date | None:
    try:
        text = rules.spelled("[0-9]{4}-[0-9]{2}-[0-9]{2}")(value)
        return None if text is None else datetime.date.fromisoformat(text)
    except ValueError:
        return None


def days(value: Json) -> list[str] | None:
    if type(value) is not list:
        return None
    for index, item in enumerate(value):
        if item not in DAYS or type(item) is not str:
            refused = Refused("Field", field="day_of_week")
            refused.path = [index]
            raise refused
    return value


def restrictions_of(v: Json) -> Restrictions:
    """All members, where rules needs some."""
    clock, length = rules.spelled("([01][0-9]|2[0-3]):[0-5][0-9]"), rules.whole(10**18)
    for kind, names in (
        (clock, "start_time end_time"),
        (date, "start_date end_date"),
        (rules.num0, "min_kwh max_kwh"),
        (length, "min_duration max_duration"),
        (days, "day_of_week"),
    ):
        for name in names.split():
            member(kind, name, v, True)
    return PLAIN_RESTRICTIONS(v)


rules.member, rules.items, rules.restrictions_of = member, items, restrictions_of


def spelled_path(path: Path) -> str:
    return "".join(f"[{step}]" if type(step) is int else f".{step}" for step in path).lstrip(".")


def exact(value: Json) -> int:
    """The number of a member that is one, in millionths."""
    read = rules.number(value)
    assert read is not None
    return read


def negative_volume(cdr: Json) -> Path:
    for i, period in enumerate(cdr["charging_periods"]):
        for j, dimension in enumerate(period["dimensions"]):
            if dimension["type"] in COUNTED and exact(dimension["volume"]) < 0:
                return ["charging_periods", i, "dimensions", j, "volume"]
    raise ValueError(cdr)


MISSING = object()


def standing(value: Json, path: Path) -> Json:
    """What stands at the path."""
    for step in path:
        inside = type(step) is int if type(value) is list else type(value) is dict and step in value
        if not inside:
            return MISSING
        value = value[step]
    return value


# What each member has to be, by the last name of the path of its object.


def string(most: int) -> str:
    return f"a string of 1 to {most} printable ASCII characters"


def whole(most: int) -> str:
    return f"a whole number from 0 to {most} in digits alone"


def list_of(least: int, most: int) -> str:
    return f"a list of {least} to {most} items"


OBJECT, TEXT, FLAG, WORDS = "an object", "a string", "true or false", "one of "
PARTY = "a string of two letters and / and three letters or digits as NL/CPA"
CURRENCY = "a string of three letters A to Z as EUR"
NUMBER = "a decimal without exponent of 1 to 9 digits and up to 30 decimals"
AT_LEAST_0 = NUMBER + " and at least 0"
DATE, CLOCK = "a string with a date as 2024-07-01", "a string with a time from 00:00 to 23:59"
MOMENT = "a string with a moment in UTC as 2024-07-01T10:00:00Z"
TOKEN_TYPE = WORDS + "AD_HOC_USER APP_USER OTHER RFID"
PARTY_MEMBERS = {"country_code": string(2), "party_id": string(3)}
SESSION_TOKEN = PARTY_MEMBERS | {"uid": string(36), "type": TOKEN_TYPE, "contract_id": string(36)}
TARIFF = PARTY_MEMBERS | {
    "id": string(36),
    "currency": CURRENCY,
    "min_price": OBJECT,
    "max_price": OBJECT,
    "elements": list_of(1, 100),
    "last_updated": MOMENT,
}
EXPECTED: dict[str | None, dict[str, str]] = {
    None: {
        "platform": string(36),
        "do": WORDS + " ".join(rules.MEMBERS),
        "tariff": OBJECT,
        "token": OBJECT,
        "cdr": OBJECT,
        "operator": PARTY,
        "provider": PARTY,
        "party": PARTY,
        "uid": string(36),
        "reference": string(36),
        "id": string(39),
        "type": TOKEN_TYPE,
        "currency": CURRENCY,
        "period": whole(10**18 - 1),
    },
    "token": SESSION_TOKEN | {"valid": FLAG, "whitelist": TEXT, "last_updated": MOMENT},
    "tariff": TARIFF,
    "tariffs": TARIFF,
    "min_price": {"excl_vat": AT_LEAST_0},
    "max_price": {"excl_vat": AT_LEAST_0},
    "elements": {"price_components": list_of(1, 16), "restrictions": OBJECT},
    "price_components": {
        "type": WORDS + "ENERGY FLAT PARKING_TIME TIME",
        "price": AT_LEAST_0,
        "step_size": whole(10**9),
    },
    "restrictions": {
        "start_time": CLOCK,
        "end_time": CLOCK,
        "start_date": DATE,
        "end_date": DATE,
        "min_kwh": AT_LEAST_0,
        "max_kwh": AT_LEAST_0,
        "min_duration": whole(10**18 - 1),
        "max_duration": whole(10**18 - 1),
        "day_of_week": list_of(0, 1048576),
        "reservation": TEXT,
    }
    | dict.fromkeys(BOUNDS, NUMBER),
    "cdr": PARTY_MEMBERS
    | {
        "id": string(39),
        "start_date_time": MOMENT,
        "end_date_time": MOMENT,
        "cdr_token": OBJECT,
        "auth_method": WORDS + "AUTH_REQUEST COMMAND WHITELIST",
        "authorization_reference": string(36),
        "currency": CURRENCY,
        "tariffs": list_of(0, 10),
        "charging_periods": list_of(1, 1000),
        "total_cost": OBJECT,
        "total_energy": NUMBER,
        "total_time": NUMBER,
        "credit": FLAG,
        "credit_reference_id": string(39),
        "last_updated": MOMENT,
    },
    "cdr_token": SESSION_TOKEN,
    "charging_periods": {"start_date_time": MOMENT, "dimensions": list_of(1, 100), "tariff_id": string(36)},
    "dimensions": {"type": TEXT, "volume": NUMBER},
    "total_cost": {"excl_vat": NUMBER},
}
UNFIT = "of a wrong kind or out of bounds"


def cut(begin: str, text: str, end: str) -> str:
    """Characters other than printable ASCII as escapes; what is longer than 50 bytes is cut."""
    for character in text:
        if len(begin) > 50:
            return begin + ".."
        plain = " " <= character <= "~"
        begin += (
            "\\" + character if character in '"\\' else character if plain else f"\\u{{{ord(character):x}}}"
        )
    return begin + end


def written(value: Json) -> str:
    """What stands in a line, as it is told."""
    if type(value) is list:
        return f"a list of {len(value)}"
    if type(value) is str:
        return cut('"', value, '"')
    if type(value) is Number:
        return cut("", value, "")
    return (
        OBJECT
        if type(value) is dict
        else {None: "null", True: "true", False: "false", MISSING: "nothing"}[value]
    )


def row(
    place: str, cause: str, found: str | int = "", against: str | int = "", event: int | None = None
) -> Row:
    return Row(place, cause, str(found), str(against), "" if event is None else str(event))


def field_row(value: Json, refused: Refused) -> Row:
    name = refused.values["field"]
    path = refused.path[::-1]
    if path[-2:-1] == ["day_of_week"]:
        shown = path if int(path[-1]) < 65536 else path[:-1]
        return row(spelled_path(shown), UNFIT, written(standing(value, path)), WORDS + " ".join(DAYS))
    if not path or path[-1] != name:
        path = ["cdr", *(negative_volume(value["cdr"]) if name == "volume" else [name])]
        bound = "at most 36 characters" if name == "id" else "at least 0"
        return row(spelled_path(path), UNFIT, written(standing(value, path)), f"{bound} without credit true")
    inside = [step for step in path[:-1] if type(step) is str]
    found = standing(value, path)
    cause = "missing" if found is MISSING else UNFIT
    return row(spelled_path(path), cause, written(found), EXPECTED[inside[-1] if inside else None][name])


# ---- A request ----


def decimal(value: int) -> str:
    sign, size = "-" if value < 0 else "", abs(value)
    return f"{sign}{size // 10**6}.{size % 10**6:06}"


def instant(text: str) -> str:
    """A moment as it is written by the program: without the zeros at its end."""
    text = text.removesuffix("Z").removesuffix("+00:00")
    whole, _, fraction = text.partition(".")
    fraction = fraction.rstrip("0")
    return f"{whole}.{fraction}Z" if fraction else f"{whole}Z"


def party(of: Json) -> str:
    return f"{of['country_code']}/{of['party_id']}"


COST = "cdr.total_cost.excl_vat"
REFERENCE = "cdr.credit_reference_id"


class Explainer:
    """The explanations under a configuration, of lines that a plain house answers in turn."""

    def __init__(self, house: House) -> None:
        self.house = house
        self.lines: list[Json] = []  # the line of each event

    def after(self, line: str) -> None:
        """To be called when the house has answered the line."""
        if len(self.house.events) > len(self.lines):
            self.lines.append(self.read(line))

    @staticmethod
    def read(line: str) -> Json:
        return json.loads(line, parse_int=Number, parse_float=Number, parse_constant=no_number)

    def row(self, line: str, answer: Json) -> Row | None:
        """All columns behind the refusal's name; none where the line is no JSON."""
        name = answer.get("refusal") or answer["answer"]
        if name == "Syntax":
            return None
        value = self.read(line)
        if name == "Field":
            try:
                request_of(line)
            except Refused as refused:
                return field_row(value, refused)
        explain: Callable[[Json, Json], Row] = getattr(self, name)
        return explain(value, answer)

    @property
    def operators(self) -> set[str]:
        return set(map(fold, self.house.operators))

    @property
    def providers(self) -> set[str]:
        return set(map(fold, self.house.providers))

    def UnknownParty(self, v: Json, _: Json) -> Row:
        rows: dict[str, list[tuple[str, str | None, Json]]] = {
            "put_tariff": [("tariff", "operator", v.get("tariff"))],
            "put_token": [("token", "provider", v.get("token"))],
            "post": [
                ("cdr", "operator", v.get("cdr")),
                ("cdr.cdr_token", "provider", (v.get("cdr") or {}).get("cdr_token")),
            ],
            "statement": [("party", None, v.get("party"))],
        }
        known = {
            "operator": self.operators,
            "provider": self.providers,
            None: self.operators | self.providers,
        }
        for place, role, of in rows.get(v["do"], [(k, k, v[k]) for k in ("operator", "provider") if k in v]):
            written = of if isinstance(of, str) else party(of)
            if fold(written) not in known[role]:
                return row(place, f"configured as no {role}" if role else "not configured", written)
        raise ValueError(v)

    def NotYours(self, v: Json, _: Json) -> Row:
        name = v["platform"]
        platform = next((p for p in self.house.config["platforms"] if fold(p["name"]) == fold(name)), None)
        if platform is None:
            return row("platform", "not configured", name)
        if v["do"] in ("close", "settle"):
            return row("platform", "no hub", name)
        of = {
            "put_tariff": "tariff",
            "put_token": "token",
            "post": "cdr",
            "exposure": "provider",
            "statement": "party",
        }
        acting = v[of.get(v["do"], "operator")]
        return row(
            "platform",
            "does not act for the party",
            name,
            acting if isinstance(acting, str) else party(acting),
        )

    def WrongCurrency(self, v: Json, _: Json) -> Row:
        inner = {"put_tariff": "tariff", "post": "cdr"}.get(v["do"])
        of = v[inner] if inner else v
        if of["currency"] not in self.house.config["currencies"]:
            return row(f"{inner}.currency" if inner else "currency", "not configured", of["currency"])
        currencies = [t["currency"] for t in of["tariffs"]]
        i = next(i for i, it in enumerate(currencies) if it != of["currency"])
        path = f"cdr.tariffs[{i}].currency"
        return row(path, "not the currency of the CDR", currencies[i], of["currency"])

    def BadDates(self, v: Json, _: Json) -> Row:
        cdr = v["cdr"]
        places = ["cdr.start_date_time"] + [
            f"cdr.charging_periods[{i}].start_date_time" for i in range(len(cdr["charging_periods"]))
        ]
        texts = (
            [cdr["start_date_time"]]
            + [p["start_date_time"] for p in cdr["charging_periods"]]
            + [cdr["end_date_time"]]
        )
        places.append("cdr.end_date_time")
        moments = [rules.moment(it) or 0 for it in texts]
        i = next(i for i in range(1, len(moments)) if moments[i] < moments[i - 1])
        return row(places[i], "before the moment in front of it", instant(texts[i]), instant(texts[i - 1]))

    def TariffNotGiven(self, v: Json, _: Json) -> Row:
        ids = [fold(t["id"]) for t in v["cdr"].get("tariffs") or []]
        periods = v["cdr"]["charging_periods"]
        named = [p.get("tariff_id") for p in periods]
        i = next(i for i, it in enumerate(named) if it is not None and fold(it) not in ids)
        return row(f"cdr.charging_periods[{i}].tariff_id", "id of no tariff of the CDR", named[i])

    def UnsupportedRestriction(self, v: Json, _: Json) -> Row:
        tariffs = (
            [("tariff", v["tariff"])]
            if v["do"] == "put_tariff"
            else [(f"cdr.tariffs[{i}]", t) for i, t in enumerate(v["cdr"]["tariffs"])]
        )
        for path, tariff in tariffs:
            for i, element in enumerate(tariff["elements"]):
                for bound in BOUNDS:
                    if (element.get("restrictions") or {}).get(bound) is not None:
                        return row(
                            f"{path}.elements[{i}].restrictions.{bound}",
                            "bounds on current and power are not supported",
                        )
        raise ValueError(v)

    def Reservation(self, v: Json, _: Json) -> Row:
        for i, period in enumerate(v["cdr"]["charging_periods"]):
            for j, d in enumerate(period["dimensions"]):
                if d["type"] == "RESERVATION_TIME" and exact(d["volume"]) > 0:
                    return row(
                        f"cdr.charging_periods[{i}].dimensions[{j}].volume",
                        "time of reservation",
                        decimal(exact(d["volume"])),
                    )
        raise ValueError(v)

    def EnergyMismatch(self, v: Json, _: Json) -> Row:
        volumes = [d for p in v["cdr"]["charging_periods"] for d in p["dimensions"]]
        total = sum(exact(d["volume"]) for d in volumes if d["type"] == "ENERGY")
        return row(
            "cdr.total_energy",
            "not the sum of ENERGY",
            decimal(exact(v["cdr"]["total_energy"])),
            decimal(total),
        )

    def AmountTooLarge(self, v: Json, _: Json) -> Row:
        return row("cdr", "rated above the largest amount", "", "100000000.0000")

    def CostMismatch(self, v: Json, answer: Json) -> Row:
        return row(
            COST,
            "farther from the rated cost than the tolerance",
            decimal(exact(v["cdr"]["total_cost"]["excl_vat"])),
            answer["rated"],
        )

    # ---- A house ----

    def event(self, test: Callable[[Event], bool], kinds: str, first: int = 0) -> int | None:
        """The first event of these kinds that passes the test, of those from a number on."""
        events = self.house.events
        numbers = range(first, len(self.lines))
        return next((i for i in numbers if events[i]["kind"] in kinds.split() and test(events[i])), None)

    def known_event(self, test: Callable[[Event], bool], kinds: str, first: int = 0) -> int:
        """The same, where there is one."""
        found = self.event(test, kinds, first)
        assert found is not None
        return found

    def booking(self, operator: str, id_: str) -> int:
        return self.known_event(
            lambda e: (e["operator"], e["id"]) == (fold(operator), fold(id_)), "Cdr Credit"
        )

    def Conflict(self, v: Json, _: Json) -> Row:
        if v["do"] == "put_tariff":
            return self.other_content("tariff", v["tariff"], "stored with another one")
        i = self.booking(party(v["cdr"]), v["cdr"]["id"])
        stored = self.house.events[i]["cdr"]
        read = rules.cdr_of(v["cdr"])
        names = {
            "start": "start_date_time",
            "end": "end_date_time",
            "token": "cdr_token",
            "method": "auth_method",
            "hold": "authorization_reference",
            "currency": "currency",
            "tariffs": "tariffs",
            "periods": "charging_periods",
            "cost": "total_cost",
            "energy": "total_energy",
            "time": "total_time",
            "credit": "credit",
            "original": "credit_reference_id",
            "updated": "last_updated",
        }
        name = next(name for key, name in names.items() if read.get(key) != stored.get(key))
        return row(f"cdr.{name}", "booked with another one", "", money(self.house.events[i]["amount"]), i)

    def other_content(self, path: str, tariff: Json, words: str) -> Row:
        key = (fold(party(tariff)), fold(tariff["id"]), rules.moment(tariff["last_updated"]))
        i = self.event(lambda e: (e["operator"], e["tariff"]["id"], e["tariff"]["updated"]) == key, "Tariff")
        if i is None:
            return row(f"{path}.last_updated", "version that is not stored", instant(tariff["last_updated"]))
        read, stored = rules.tariff_of(tariff), self.house.events[i]["tariff"]
        names = {"currency": "currency", "min": "min_price", "max": "max_price", "elements": "elements"}
        name = next(name for key, name in names.items() if read.get(key) != stored.get(key))
        return row(f"{path}.{name}", words, event=i)

    def TariffNotRegistered(self, v: Json, _: Json) -> Row:
        operator = party(v["cdr"])
        stored = [
            e["tariff"]
            for e in self.house.events
            if e["kind"] == "Tariff" and e["operator"] == fold(operator)
        ]
        for i, tariff in enumerate(v["cdr"]["tariffs"]):
            if rules.tariff_of(tariff) not in stored:
                path = f"cdr.tariffs[{i}]"
                if fold(party(tariff)) != fold(operator):
                    return row(path, "of another operator", party(tariff), operator)
                words = "stored with another one; {} and no restrictions differ"
                return self.other_content(path, tariff, words)
        raise ValueError(v)

    def UnknownToken(self, v: Json, _: Json) -> Row:
        i = self.event(lambda e: (e["provider"], e["uid"]) == (fold(v["provider"]), fold(v["uid"])), "Token")
        if i is None:
            return row("uid", "token that is not put", v["uid"])
        return row("type", "put as of another type", v.get("type") or "RFID", self.house.events[i]["type"], i)

    def BLOCKED(self, v: Json, _: Json) -> Row:
        return row("uid", "token that is not valid", v["uid"])

    def NO_CREDIT(self, v: Json, _: Json) -> Row:
        operator, provider, currency = fold(v["operator"]), fold(v["provider"]), v["currency"]
        limits, pair = self.house.row(provider, currency), self.house.pair_limit(operator, provider, currency)
        exposure = sum(self.house.sums(provider, currency)) + limits["hold"]
        if exposure > limits["limit"]:
            return row("provider", "above the provider's limit", money(exposure), money(limits["limit"]))
        assert pair is not None
        exposure = sum(self.house.sums(provider, currency, operator)) + limits["hold"]
        return row("provider", "above the limit with the operator", money(exposure), money(pair))

    def UnknownHold(self, v: Json, _: Json) -> Row:
        provider, reference = fold(v["provider"]), fold(v["reference"])
        i = self.event(lambda e: (e["provider"], e["reference"]) == (provider, reference), "Authorised")
        if i is None:
            return row("reference", "never given", v["reference"])
        hold = self.house.events[i]
        if hold["operator"] != fold(v["operator"]):
            return row("reference", "given to another operator", v["reference"], self.lines[i]["operator"], i)
        i = self.known_event(
            lambda e: all(e[k] == hold[k] for k in OF_HOLD)
            and (e["kind"] == "Released" or e["currency"] == hold["currency"]),
            "Released Cdr",
            i + 1,
        )
        if self.house.events[i]["kind"] == "Released":
            return row("reference", "released already", v["reference"], "", i)
        return row("reference", "used up by a CDR", v["reference"], self.lines[i]["cdr"]["id"], i)

    def UnknownOriginal(self, v: Json, _: Json) -> Row:
        return row(REFERENCE, "id of no CDR of the operator", v["cdr"]["credit_reference_id"])

    def CreditOfCredit(self, v: Json, _: Json) -> Row:
        id_ = v["cdr"]["credit_reference_id"]
        return row(REFERENCE, "id of a Credit CDR", id_, "", self.booking(party(v["cdr"]), id_))

    def AlreadyCredited(self, v: Json, _: Json) -> Row:
        operator, id_ = party(v["cdr"]), v["cdr"]["credit_reference_id"]
        i = self.known_event(
            lambda e: (e["operator"], e["original"]) == (fold(operator), fold(id_)), "Credit"
        )
        return row(REFERENCE, "credited already", id_, self.lines[i]["cdr"]["id"], i)

    def TooLate(self, v: Json, answer: Json) -> Row:
        return row(REFERENCE, "of a period before the credit window", answer["original"], answer["current"])

    def CreditDiffers(self, v: Json, _: Json) -> Row:
        cdr = v["cdr"]
        i = self.booking(party(cdr), cdr["credit_reference_id"])
        event, original = self.house.events[i], self.lines[i]["cdr"]
        of, other = party(cdr["cdr_token"]), party(original["cdr_token"])
        if fold(of) != fold(other):
            return row("cdr.cdr_token", "not the provider of the CDR", of, other, i)
        if cdr["currency"] != original["currency"]:
            return row(
                "cdr.currency", "not the currency of the CDR", cdr["currency"], original["currency"], i
            )
        cost = exact(cdr["total_cost"]["excl_vat"])
        if cost > 0:
            return row(COST, "above 0", decimal(cost), "", i)
        return row(
            COST,
            "farther from the negated amount than the tolerance",
            decimal(cost),
            money(-event["amount"]),
            i,
        )

    def NotCurrent(self, v: Json, answer: Json) -> Row:
        period, current = int(v["period"]), answer["current"]
        return row(
            "period", "closed already" if period < current else "not the current one yet", period, current
        )

    def PeriodOpen(self, v: Json, _: Json) -> Row:
        return row("period", "not closed yet", int(v["period"]), self.house.current())

    def AlreadySettled(self, v: Json, _: Json) -> Row:
        key = (fold(v["provider"]), v["currency"], int(v["period"]))
        i = self.known_event(lambda e: (e["provider"], e["currency"], e["settles"]) == key, "Settled")
        return row("period", "settled already", int(v["period"]), "", i)

    def UnknownCdr(self, v: Json, _: Json) -> Row:
        return row("id", "id of no CDR of the operator", v["id"])

    def Full(self, v: Json, answer: Json) -> Row:
        cdr, most = v.get("cdr") or {}, self.house.most
        operator = party(v["tariff"]) if v["do"] == "put_tariff" else party(cdr) if v["do"] == "post" else ""
        provider = (
            party(v["token"])
            if v["do"] == "put_token"
            else party(cdr["cdr_token"])
            if v["do"] == "post"
            else v.get("provider")
        )
        member, of = {
            "Cdrs": ("cdrs", operator),
            "Tariffs": ("tariffs", operator),
            "Account": ("entries", provider),
            "Order": ("order", ""),
            "Periods": ("periods", ""),
        }[answer["what"]]
        return row("", f"limits.{member} reached", of, most[member])

    def OverLimit(self, v: Json, answer: Json) -> Row:
        whose = (
            "above the limit with the operator"
            if answer.get("scope") == "pair"
            else "above the provider's limit"
        )
        return row("cdr", whose, answer["exposure"], answer["limit"])
