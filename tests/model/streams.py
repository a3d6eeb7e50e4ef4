"""A plain reading of streams: the rules of a script, lines that change the configuration, and request ids (docs/RULES.md). A change is tried
by asking for each event of the house once more, by every platform and, for a hold, by every token."""
from __future__ import annotations

import copy
import json
import random
from collections.abc import Iterator
from typing import Literal, TypedDict

from random_lines import Object, Script, dumped
from rules import Answered, Config, Event, House, Json, LimitRow, Number, Operator, Platform, Provider
from rules import Refused, Request, Token, Values, ci, compact, fold, member, no_number, object_of, request_of

DONE = {
    "Tariff": "put_tariff",
    "Token": "put_token",
    "Authorised": "authorize",
    "Released": "release",
    "Cdr": "post",
    "Credit": "post",
    "Settled": "settle",
    "Closed": "close",
}


BOUND: tuple[Literal["pair_limits", "credit_window", "limits"], ...] = (
    "pair_limits",
    "credit_window",
    "limits",
)


def asks(event: Event, number: int, house: House) -> list[Request]:
    """What may have been asked for an event, without the platform."""
    kind, ask = event["kind"], Request(do=DONE[event["kind"]])
    if kind == "Tariff":
        return [ask | Request(tariff=event["tariff"])]
    if kind == "Token":
        party, uid = event["provider"], event["uid"]
        return [ask | Request(token=Token(party=party, uid=uid, type=event["type"], valid=event["valid"]))]
    if kind in ("Cdr", "Credit"):
        return [ask | Request(cdr=event["cdr"])]
    if kind == "Closed":
        return [ask | Request(period=house.current())]
    ask["provider"] = event["provider"]
    if kind == "Released":
        return [ask | Request(operator=event["operator"], reference=event["reference"])]
    ask["currency"] = event["currency"]
    if kind == "Settled":
        return [ask | Request(period=event["settles"])]
    tokens = {(e["uid"], e["type"]) for e in house.all("Token", provider=event["provider"])}
    ask["operator"] = event["operator"]
    return [ask | Request(uid=uid, type=type_) for uid, type_ in sorted(tokens)]


def comes_out(house: House, event: Event, number: int) -> bool:
    """Whether some request adds the event to the house, which then has it."""
    for ask in asks(event, number, house):
        for platform in house.config["platforms"]:
            request = ask | Request(platform=fold(platform["name"]))
            try:
                house.admit(request)
                house.done(request)
            except Refused:
                continue
            if house.events[number:] == [event]:
                return True
            del house.events[number:]
    return False


def first_otherwise(house: House, events: list[Event]) -> int | None:
    """The number of the first event that comes out otherwise, or None."""
    return next((i for i, event in enumerate(events) if not comes_out(house, event, i)), None)


def loosened(config: Config) -> Config:
    """The configuration with nothing but parties, currencies, zones and holds."""
    loose = copy.deepcopy(config)
    for name in BOUND:
        loose.pop(name, None)
    for provider in loose["providers"]:
        holds = {row["currency"]: row["hold"] for row in provider.get("limits", [])}
        # without a row a provider has a hold of 0.0001
        provider["limits"] = [
            {"currency": currency, "limit": 10**15, "hold": holds.get(currency, 1)}
            for currency in loose["currencies"]
        ]
    parties = [x["party"] for x in loose["operators"] + loose["providers"]]
    loose["tolerance"] = 10**12
    loose["platforms"] = [{"name": "hub", "parties": parties, "hub": True}]
    return loose


def refused(name: str, number: int, status: int, values: Values | None = None) -> str:
    return compact({"status_code": status, "refusal": name, "number": number} | (values or {}))


def early(refusal: Refused) -> str:
    """The answer to a line that asks for nothing, or whose platform may not ask."""
    number, status = {"Syntax": (1, 2001), "Field": (2, 2001), "NotYours": (4, 2000)}[refusal.name]
    return refused(refusal.name, number, status, refusal.values)


def request_id_of(value: Json) -> str | None:
    """The request id of a line, or None."""
    given = value.get("request_id") if type(value) is dict else None
    if given is None:
        return None
    if type(given) is not str or not 1 <= len(given.encode()) <= 64:
        raise Refused("Field", field="request_id")
    return given


def as_it_is(value: Json) -> Json:
    return value


def written_number(value: Json) -> Number | None:
    return value if type(value) is Number else None


class Change(TypedDict):
    """A line that changes the configuration."""

    platform: str
    config: Config


class Stream(House):
    """A house that answers the lines of a stream."""

    def __init__(self, config: Config) -> None:
        super().__init__(config)
        self.remembered: dict[tuple[str, str], tuple[str, str]] = {}  # line and answer by platform and id

    def answer(self, line: str) -> str:
        try:
            value: Json = json.loads(line, parse_int=Number, parse_float=Number, parse_constant=no_number)
        except ValueError:
            return super().answer(line)
        is_change = type(value) is dict and value.get("do") == "configure"
        try:
            given = request_id_of(value)
            platform = self.change_of(value)["platform"] if is_change else request_of(line)["platform"]
        except Refused as refusal:
            return early(refusal)
        key = (platform, given) if given else None
        if key and key in self.remembered:
            first, answer = self.remembered[key]
            return answer if first == line else refused("RequestIdUsed", 30, 2000)
        is_allowed = self.has_hub(platform) if is_change else self.admits(line)
        answer = self.configure(value) if is_change else super().answer(line)
        if key and is_allowed:
            self.remembered[key] = line, answer
        return answer

    def has_hub(self, platform: str) -> bool:
        return any(fold(p["name"]) == platform and p.get("hub", False) for p in self.config["platforms"])

    def admits(self, line: str) -> bool:
        """Whether no refusal of the line and the configuration alone, 1 to 12, is the answer to the request."""
        try:
            self.admit(request_of(line))
        except Refused:
            return False
        return True

    def authorize(self, r: Request) -> Answered:
        name, values = super().authorize(r)
        if name == "ALLOWED":
            # A hold's reference begins with its provider as it is configured, letter by letter.
            self.events[-1]["written"] = values["authorization_reference"]
        return name, values

    def change_of(self, value: Json) -> Change:
        platform = fold(member(ci(36), "platform", value))
        config: Config = member(object_of(as_it_is), "configuration", value)
        member(written_number, "version", config)
        if not any(p.get("hub") for p in config["platforms"]):
            raise Refused("Field", field="platforms")
        return {"platform": platform, "config": config}

    def configure(self, value: Json) -> str:
        change = self.change_of(value)
        platform, config = change["platform"], change["config"]
        if not self.has_hub(platform):
            return early(Refused("NotYours"))
        at, new = len(self.events), Stream(json.loads(dumped(config)))
        outside = first_otherwise(new, copy.deepcopy(self.events))
        past: Values = {}
        events = new.events
        if outside is not None:
            past = {"event": outside, "kind": self.events[outside]["kind"]}
            loose = Stream(loosened(new.config))
            forbids = first_otherwise(loose, copy.deepcopy(self.events))
            if forbids is not None:
                return refused(
                    "ComesOutOtherwise",
                    29,
                    2000,
                    {"at": at, "event": forbids, "kind": self.events[forbids]["kind"]},
                )
            events = loose.events
        House.__init__(self, new.config)
        self.events = events
        return compact({"status_code": 1000, "answer": "Configured", "at": at} | past)


class StreamScript(Script):
    """A random script with lines that change the configuration, request ids, and lines that come again."""

    house: Stream

    def __init__(self, seed: int) -> None:
        super().__init__(seed, Stream)
        self.with_ids: list[str] = []

    def config_text(self) -> str:
        return dumped(self.house.config)

    def configure(self) -> Object:
        rng, config = self.rng, copy.deepcopy(self.house.config)
        for change in rng.sample(CHANGES, rng.choice([1, 1, 1, 2, 3])):
            change(rng, config)
        return {
            "platform": self.cased(rng.choice(["hub"] * 6 + ["both", "cpo"])),
            "do": "configure",
            "configuration": consistent(config),
        }

    def sent(self, line: str) -> str:
        if self.rng.random() < 0.5 or not line.endswith("}"):
            return line
        given = (
            self.rng.choice(IDS)
            if self.rng.random() < 0.1
            else f'{self.rng.choice("abAB")}{self.rng.randint(0, 60)}'
        )
        sent = f'{line[:-1]},"request_id":{json.dumps(given)}}}'
        self.with_ids.append(sent)
        return sent

    def lines(self, count: int = 60) -> Iterator[tuple[str, str]]:
        for line, answer in super().lines(count):
            yield line, answer
            if self.rng.random() < 0.15:
                request = self.configure()
                change = self.sent(self.bad(request) if self.rng.random() < 0.1 else dumped(request))
                yield change, self.house.answer(change)
            if self.with_ids and self.rng.random() < 0.3:
                again = self.rng.choice(self.with_ids)
                yield again, self.house.answer(again)


# Request ids that are none, or that differ from others by their letters' case or beyond ASCII.
IDS = ("", "x" * 64, "x" * 65, 7, None, True, "É", "é", "é" * 33)


# ---- Changes of a configuration: of each kind some that events forbid, and some that none forbids ----


def rows(config: Config) -> list[LimitRow]:
    return [row for provider in config["providers"] for row in provider.get("limits", [])]


def limits(rng: random.Random, config: Config) -> None:
    for row in rows(config):
        row["limit"] = rng.choice([row["limit"], 0, 200000, 700000, 2000000])


def holds(rng: random.Random, config: Config) -> None:
    for row in rows(config):
        row["hold"] = rng.choice([row["hold"]] * 3 + [1, 100000, 250000])


def no_rows(rng: random.Random, config: Config) -> None:
    provider = rng.choice(config["providers"])
    row: LimitRow = {"currency": "EUR", "limit": 2000000, "hold": rng.choice([1, 200000])}
    provider["limits"] = [] if provider.get("limits") else [row]


def pair_limits(rng: random.Random, config: Config) -> None:
    config["version"] = 2
    config["pair_limits"] = [
        {
            "operator": "NL/CPA",
            "provider": "NL/MSA",
            "currency": "EUR",
            "limit": rng.choice([0, 100000, 900000]),
        }
    ]


def no_pair_limits(rng: random.Random, config: Config) -> None:
    config.pop("pair_limits", None)


def window(rng: random.Random, config: Config) -> None:
    config.pop("credit_window", None)
    if rng.random() < 0.6:
        config["version"] = 2
        config["credit_window"] = rng.randint(0, 2)


def tolerance(rng: random.Random, config: Config) -> None:
    config["tolerance"] = rng.choice([0, 50, 100, 10000])


def sizes(rng: random.Random, config: Config) -> None:
    config["limits"] = {
        "order": rng.choice([*range(3, 60, 3), 1000]),
        "entries": rng.choice([4, 30, 1000]),
    }


def no_sizes(rng: random.Random, config: Config) -> None:
    config.pop("limits", None)


def renamed(rng: random.Random, config: Config) -> None:
    for operator in config["operators"]:
        if fold(operator["party"]) == "nl/cpa":
            operator["party"] = rng.choice(["NL/CPA", "nl/cpa", "Nl/Cpa"])
    config["operators"].reverse()
    config["currencies"].reverse()


def provider_renamed(rng: random.Random, config: Config) -> None:
    for provider in config["providers"]:
        if fold(provider["party"]) == "nl/msa":
            provider["party"] = rng.choice(["NL/MSA", "nl/msa"])


def added(rng: random.Random, config: Config) -> None:
    config["platforms"] = [p for p in config["platforms"] if p["name"] != "new"]
    if not any(fold(o["party"]) == "be/new" for o in config["operators"]):
        config["operators"].append({"party": "BE/NEW", "zone": "CET-1CEST,M3.5.0,M10.5.0/3"})
        config["platforms"].append({"name": "new", "parties": ["BE/NEW"]})


def taken_away(rng: random.Random, config: Config) -> None:
    lists: list[list[Operator] | list[Provider] | list[Platform] | list[str]] = [
        config["operators"],
        config["providers"],
        config["platforms"],
        config["currencies"],
    ]
    chosen = rng.choice(lists)
    if len(chosen) > 1:
        chosen.pop()


def platforms(rng: random.Random, config: Config) -> None:
    config["platforms"] = [
        {"name": "cpo", "parties": ["NL/CPA", "SE/CPB"]},
        {"name": "emp", "parties": ["NL/MSA", "DE/MSB"]},
        {"name": "both", "parties": rng.choice([["SE/CPB"], ["NL/MSA"], []]), "hub": rng.random() < 0.8},
        {"name": "hub", "parties": [], "hub": rng.random() < 0.95},
    ]


def consistent(config: Config) -> Config:
    """The configuration without what names a party or a currency that it does not have."""
    operators = {fold(x["party"]) for x in config["operators"]}
    providers = {fold(x["party"]) for x in config["providers"]}
    for platform in config["platforms"]:
        platform["parties"] = [p for p in platform["parties"] if fold(p) in operators | providers]
    for provider in config["providers"]:
        provider["limits"] = [
            row for row in provider.get("limits", []) if row["currency"] in config["currencies"]
        ]
    config["pair_limits"] = [
        p
        for p in config.get("pair_limits", [])
        if fold(p["operator"]) in operators
        and fold(p["provider"]) in providers
        and p["currency"] in config["currencies"]
    ]
    return config


CHANGES = (
    limits,
    holds,
    no_rows,
    pair_limits,
    no_pair_limits,
    window,
    tolerance,
    sizes,
    no_sizes,
    renamed,
    provider_renamed,
    added,
    taken_away,
    platforms,
)
