"""Random request lines: all ten commands, among them bad and repeated ones, over configurations with two operators, three providers
(one of them an operator too) and two currencies, and tariffs that rules.py rates.
"""
from __future__ import annotations

import json
import random
from collections.abc import Callable, Iterator
from typing import TypeAlias

from rules import Config, House, Json, LimitRow, Number, cdr_of, fold, moment, money, price

Object: TypeAlias = dict[str, Json]


# ---- Random scripts ----

TARIFFS = ("E1", "E2", "F1", "R1")
FIRST = moment("2024-06-01T00:00:00Z") or 0


def spelling(rng: random.Random, word: str) -> str:
    return rng.choice([word] * 6 + [word.lower(), word.upper(), word.swapcase()])


def kwh(wh: int) -> Number:
    return Number(f"{wh // 1000}.{wh % 1000:03}")


def random_limits(rng: random.Random) -> list[LimitRow]:
    rows: list[LimitRow] = [
        {
            "currency": c,
            "limit": rng.choice([0, 300000, 600000, 1000000, 1000000]),
            "hold": rng.choice([1, 100000, 200000]),
        }
        for c in ("EUR", "SEK")
    ]
    return rows[: rng.choice([2, 2, 2, 1])]


def random_config(rng: random.Random) -> Config:
    zone = "CET-1CEST,M3.5.0,M10.5.0/3"
    config: Config = {
        "version": rng.choice([1, 2, 2, 2]),
        "tolerance": rng.choice([0, 100]),
        "currencies": rng.sample(["EUR", "SEK"], 2),
        "operators": [{"party": "NL/CPA", "zone": zone}, {"party": "se/Cpb", "zone": zone}],
        "providers": [
            {"party": "NL/MSA", "limits": random_limits(rng)},
            {"party": "de/msb", "limits": random_limits(rng)},
            {"party": "SE/CPB", "limits": random_limits(rng)},
        ],
        "platforms": [
            {"name": "cpo", "parties": ["NL/CPA", "SE/CPB"]},
            {"name": "emp", "parties": ["NL/MSA", "DE/MSB"]},
            {"name": "both", "parties": ["SE/CPB", "NL/MSA"], "hub": True},
            {"name": "hub", "parties": [], "hub": True},
        ],
    }
    if rng.random() < 0.3:
        sizes = {"cdrs": 6, "tariffs": 3, "entries": 8, "order": 25, "periods": 2}
        config["limits"] = {k: rng.randint(1, v) for k, v in sizes.items() if rng.random() < 0.4}
    if rng.random() < 0.7:
        config["pair_limits"] = [
            {"operator": o, "provider": p, "currency": c, "limit": rng.choice([0, 100000, 400000])}
            for o in ("NL/CPA", "SE/CPB")
            for p in ("NL/MSA", "DE/MSB")
            for c in ("EUR", "SEK")
            if rng.random() < 0.3
        ]
    if rng.random() < 0.6:
        config["credit_window"] = rng.randint(0, 2)
    return config


class Script:
    """Lines that mostly fit what the house holds, so that every case of every command comes up. CDRs have the ids S1 to S and `ids`."""

    def __init__(self, seed: int | str, house: Callable[[Config], House] = House, ids: int = 30) -> None:
        self.rng = random.Random(seed)
        self.house = house(random_config(self.rng))
        self.ids = ids
        self.posted: list[tuple[str, Object]] = []  # operators and CDRs

    def cased(self, word: str) -> str:
        return spelling(self.rng, word)

    def split(self, party: str) -> Object:
        country, _, party = self.cased(party).partition("/")
        return {"country_code": country, "party_id": party}

    def operator(self) -> str:
        return self.rng.choice(["NL/CPA", "NL/CPA", "SE/CPB"])

    def provider(self) -> str:
        return self.rng.choice(["NL/MSA", "NL/MSA", "DE/MSB", "SE/CPB"])

    def sender(self, party: str) -> str:
        acting = {"NL/CPA": ["cpo"], "SE/CPB": ["cpo", "both"], "NL/MSA": ["emp", "both"], "DE/MSB": ["emp"]}
        return self.cased(self.rng.choice(acting[party]))

    def tariff(self, operator: str, name: str, version: int = 0) -> Object:
        rng = random.Random(f"{operator} {name} {version}")
        energy = {
            "type": "ENERGY",
            "price": Number(rng.choice(["0.25", "0.3333", "0.05", "1"])),
            "step_size": rng.choice([1, 1, 500]),
        }
        flat = {"type": "FLAT", "price": Number(rng.choice(["0.5", "1.25"])), "step_size": 1}
        components = {"E": [energy], "F": [flat, energy], "R": [energy]}[name[0]]
        elements: list[Object] = [{"price_components": components}]
        if name[0] == "R":
            elements.insert(
                0, {"price_components": [dict(flat)], "restrictions": {"reservation": "RESERVATION"}}
            )
        prices: dict[str, Object] = {
            "E2": {"min_price": {"excl_vat": Number("0.75")}},
            "F1": {"max_price": {"excl_vat": 9}},
        }
        tariff = (
            self.split(operator)
            | {"id": self.cased(name), "currency": "SEK" if name in ("E2", "R1") else "EUR"}
            | prices.get(name, {})
        )
        return tariff | {"elements": elements, "last_updated": f"2024-06-0{version + 1}T00:00:00Z"}

    def put_tariff(self) -> Object:
        operator = self.operator()
        tariff = self.tariff(operator, self.rng.choice(TARIFFS), self.rng.choice([0, 0, 0, 1]))
        if self.rng.random() < 0.1:
            tariff["elements"] = tariff["elements"] + [
                {"price_components": [{"type": "FLAT", "price": 2, "step_size": 0}]}
            ]
        if self.rng.random() < 0.05:
            tariff["elements"][0]["restrictions"] = {"max_power": 11}
        return {"platform": self.sender(operator), "do": "put_tariff", "tariff": tariff}

    def put_token(self) -> Object:
        provider = self.provider()
        token = self.split(provider) | {"uid": self.cased(self.rng.choice(["U1", "U1", "U2"]))}
        token |= {
            "type": self.rng.choice(["RFID"] * 4 + ["APP_USER"]),
            "contract_id": "C1",
            "valid": self.rng.random() < 0.9,
        }
        token |= {"whitelist": "NEVER", "last_updated": "2024-07-01T00:00:00Z"}
        return {"platform": self.sender(provider), "do": "put_token", "token": token}

    def authorize(self) -> Object:
        operator, provider = self.operator(), self.provider()
        kind = {"type": self.rng.choice(["RFID", "APP_USER"])} if self.rng.random() < 0.2 else {}
        request = {"platform": self.sender(operator), "do": "authorize", "operator": self.cased(operator)}
        request |= {"provider": self.cased(provider), "uid": self.cased(self.rng.choice(["U1"] * 5 + ["U2"]))}
        return request | kind | {"currency": self.rng.choice(["EUR", "SEK"])}

    def hold(self, operator: str, provider: str) -> str:
        """Mostly the reference of a hold of the two, open or not."""
        made = [
            e["reference"]
            for e in self.house.all("Authorised", operator=fold(operator), provider=fold(provider))
        ]
        return self.cased(self.rng.choice(made + ["NLMSA-1"]))

    def release(self) -> Object:
        operator, provider = self.operator(), self.provider()
        holds = self.house.all("Authorised")
        if holds and self.rng.random() < 0.7:
            hold = self.rng.choice(holds)
            operator, provider = hold["operator"].upper(), hold["provider"].upper()
        return {
            "platform": self.sender(operator),
            "do": "release",
            "operator": self.cased(operator),
            "provider": self.cased(provider),
            "reference": self.hold(operator, provider),
        }

    def charging_period(self, number: int, wh: int, tariff: str) -> Object:
        start, volume = f"2024-07-01T10:{number}0:00Z", kwh(wh)
        period = {"start_date_time": start, "dimensions": [{"type": "ENERGY", "volume": volume}]}
        return period | ({"tariff_id": self.cased(tariff)} if self.rng.random() < 0.95 else {})

    def cdr(self) -> tuple[str, Object]:
        operator, provider, name, version = self.operator(), self.provider(), self.rng.choice(TARIFFS), 0
        if self.rng.random() < 0.9:
            stored = self.house.all("Tariff")
            if stored:
                kept = self.rng.choice(stored)
                operator = {"nl/cpa": "NL/CPA", "se/cpb": "SE/CPB"}[kept["operator"]]
                name, version = kept["tariff"]["id"].upper(), int(kept["tariff"]["updated"] > FIRST)
        tariff = self.tariff(operator, name, version)
        volumes = [
            self.rng.choice([5000, 20000, 333, 40000, 1, 20]) for _ in range(self.rng.choice([1, 1, 2]))
        ]
        periods = [self.charging_period(i, v, name) for i, v in enumerate(volumes)]
        number = self.rng.randint(1, self.ids)
        cdr = self.split(operator) | {
            "id": self.cased(f"S{number}"),
            "start_date_time": "2024-07-01T10:00:00Z",
            "end_date_time": "2024-07-01T11:00:00Z",
        }
        cdr["cdr_token"] = self.split(provider) | {"uid": "U1", "type": "RFID", "contract_id": "C1"}
        cdr |= {"auth_method": "WHITELIST"}
        if self.rng.random() < 0.5:
            cdr["authorization_reference"] = self.hold(operator, provider)
        cdr |= {
            "currency": tariff["currency"],
            "tariffs": [tariff],
            "charging_periods": periods,
            "total_cost": {"excl_vat": 0},
            "total_energy": kwh(sum(volumes)),
            "total_time": 1,
            "last_updated": "2024-07-01T11:05:00Z",
        }
        rated = price(cdr_of(json.loads(dumped(cdr), parse_int=Number, parse_float=Number)))
        cdr["total_cost"] = {"excl_vat": Number(money(rated + self.rng.choice([0] * 20 + [100, -100, 101])))}
        return operator, cdr

    def spoil(self, cdr: Object) -> None:
        """Sometimes one member is not as it has to be."""
        reserved = {"type": "RESERVATION_TIME", "volume": Number("0.5")}
        ways: list[Callable[[], Json]] = [
            lambda: cdr.update(end_date_time="2024-07-01T10:05:00"),
            lambda: cdr.update(end_date_time="2024-07-01T09:59:59.999Z"),
            lambda: cdr.update(total_energy=Number("77.5")),
            lambda: cdr.update(total_energy=Number("-0.01")),
            lambda: cdr["charging_periods"][0].update(tariff_id="G9"),
            lambda: cdr.update(currency="USD"),
            lambda: cdr.update(currency="SEK"),
            lambda: cdr["charging_periods"][0]["dimensions"].append(reserved),
            lambda: cdr["tariffs"][0]["elements"][0].update(restrictions={"min_current": 6}),
            lambda: cdr.update(party_id="CPX"),
            lambda: cdr["tariffs"][0]["elements"][0]["price_components"][-1].update(price=999999999),
            lambda: cdr.update(id="x" * 37),
            lambda: cdr.pop("auth_method"),
            lambda: cdr.update(total_cost={"excl_vat": "5"}),
            lambda: cdr.update(charging_periods=[]),
            lambda: cdr["charging_periods"][0].update(start_date_time="2024-07-01T09:59:59Z"),
        ]
        self.rng.choice(ways)()

    def post(self) -> Object:
        chance = self.rng.random()
        known = {(e["operator"], e["id"]) for e in self.house.billed()}
        booked = [(o, c) for o, c in self.posted if (fold(o), fold(c["id"])) in known] or self.posted
        if booked and chance < 0.12:
            operator, cdr = self.rng.choice(booked)
            cdr = json.loads(dumped(cdr), parse_float=Number)
            if self.rng.random() < 0.3:
                cdr["total_time"] = 2
            else:
                cdr["id"] = self.cased(cdr["id"])
        elif booked and chance < 0.4:
            operator, cdr = self.rng.choice(booked)
            cdr = json.loads(dumped(cdr), parse_float=Number)
            rated = price(cdr_of(json.loads(dumped(cdr), parse_int=Number, parse_float=Number)))
            cost = (
                self.rng.choice([0] * 12 + [100, -100, 101, rated, 2 * rated] + [100] * 8 * (rated < 100))
                - rated
            )
            reference = self.rng.choice([cdr["id"]] * 8 + ["S9", cdr["id"] + "-C"])
            cdr |= {
                "id": self.cased(f'{cdr["id"]}-{self.rng.choice("CCD")}'),
                "total_cost": {"excl_vat": Number(money(cost))},
                "credit": True,
                "credit_reference_id": self.cased(reference),
            }
            if self.rng.random() < 0.08:
                cdr["cdr_token"] = self.split("DE/MSB") | {"uid": "U1", "type": "RFID", "contract_id": "C1"}
        else:
            operator, cdr = self.cdr()
            if self.rng.random() < 0.12:
                self.spoil(cdr)
            else:
                self.posted.append((operator, cdr))
        return {"platform": self.sender(operator), "do": "post", "cdr": cdr}

    def period(self) -> int:
        """Mostly one that is closed, where there is one."""
        current = self.house.current()
        return self.rng.choice([0] * 3 + [max(0, current - 1)] * 6 + [current, current + 3])

    def close(self) -> Object:
        current = self.house.current()
        return {
            "platform": self.rng.choice(["hub", "HUB", "both"]),
            "do": "close",
            "period": self.rng.choice([current] * 5 + [self.period()]),
        }

    def settle(self) -> Object:
        provider, currency, period = self.provider(), self.rng.choice(["EUR", "SEK"]), self.period()
        billed = self.house.all("Cdr")
        if billed and self.rng.random() < 0.6:
            cdr = self.rng.choice(billed)
            provider, currency, period = cdr["provider"], cdr["currency"], cdr["period"]
        return {
            "platform": self.rng.choice(["hub", "both"]),
            "do": "settle",
            "provider": self.cased(provider),
            "currency": currency,
            "period": period,
        }

    def exposure(self) -> Object:
        provider = self.provider()
        sender = self.sender(provider)
        return {
            "platform": sender,
            "do": "exposure",
            "provider": self.cased(provider),
            "currency": self.rng.choice(["EUR", "SEK"]),
        }

    def find(self) -> Object:
        operator = self.operator()
        booked = [e["id"] for e in self.house.billed(operator=fold(operator))]
        return {
            "platform": self.sender(operator),
            "do": "find",
            "operator": self.cased(operator),
            "id": self.cased(self.rng.choice(booked + ["S1"])),
        }

    def statement(self) -> Object:
        party, period = self.rng.choice(["NL/CPA", "SE/CPB", "NL/MSA", "DE/MSB"]), self.period()
        billed = self.house.billed()
        if billed and self.rng.random() < 0.6:
            cdr = self.rng.choice(billed)
            party, period = self.rng.choice([cdr["operator"], cdr["provider"]]).upper(), cdr["period"]
        return {
            "platform": self.sender(party),
            "do": "statement",
            "party": self.cased(party),
            "period": period,
        }

    def bad(self, request: Object) -> str:
        """The request with something wrong in it, as a line."""
        rng, name = self.rng, self.rng.choice(list(request))
        way = rng.randrange(5)
        if way == 0:
            line = dumped(request)
            return line[: rng.randrange(1, len(line))]
        if way == 1:
            return dumped({k: v for k, v in request.items() if k != name})
        if way == 2:
            return dumped(
                request | {name: rng.choice([None, 7, "x", [], {}, True, Number("1e3"), Number("-1"), ""])}
            )
        if way == 3:
            return dumped(request | {"platform": rng.choice(["cpo", "emp", "hub", "both", "nobody"])})
        others = {"operator": "NL/CPX", "provider": "NL/CPA", "party": "NL/XYZ", "currency": "USD"}
        return dumped(request | {k: v for k, v in others.items() if k in request and rng.random() < 0.6})

    def lines(self, count: int = 60) -> Iterator[tuple[str, str]]:
        """The lines with the answers of the plain reading."""
        weights = {
            "put_tariff": 8,
            "put_token": 8,
            "authorize": 14,
            "release": 5,
            "post": 32,
            "close": 8,
            "settle": 8,
            "exposure": 7,
            "find": 6,
            "statement": 8,
        }
        for number in range(count):
            first = ("put_tariff", "put_token")[number % 2] if number < 10 else None
            request = getattr(self, first or self.rng.choices(list(weights), list(weights.values()))[0])()
            line = self.sent(self.bad(request) if self.rng.random() < 0.1 else dumped(request))
            yield line, self.house.answer(line)

    def sent(self, line: str) -> str:
        """The line as it is sent."""
        return line


def dumped(value: Json) -> str:
    if type(value) is Number:
        return str(value)
    if type(value) is dict:
        return "{" + ",".join(f"{json.dumps(k)}:{dumped(v)}" for k, v in value.items()) + "}"
    if type(value) is list:
        return "[" + ",".join(map(dumped, value)) + "]"
    return json.dumps(value)
