"""The registers against the house: what they have of a long stream is what the house answers about it."""

from __future__ import annotations

import csv
import io
import json
import random
import subprocess
import sys
from decimal import Decimal
from pathlib import Path
from typing import Any

import pytest
from clear_service.configuration import written
from clear_service.lines import folded
from clear_service.owed import Balances, Debtor, Owed, Pair
from clear_service.registers import Registers
from clear_service.settings import settings_of

from conftest import SERVICE

LOAD = SERVICE.parent / "bench" / "clearing_load"
PROGRAM = settings_of("", "").program
CDRS = 2_500  # more than are of one period of the load


def output(*words: str, given: bytes = b"") -> bytes:
    return subprocess.run(words, input=given, capture_output=True, check=True).stdout


class Stream:
    """Lines of the load, some of them with request ids and sent again later, and their answers."""

    def __init__(self, folder: Path) -> None:
        self.config = folder / "config.json"
        self.config.write_bytes(output(sys.executable, str(LOAD), "config"))
        self.configuration = json.loads(self.config.read_bytes())
        rng = random.Random(1)
        self.lines: list[bytes] = []
        for number, line in enumerate(output(sys.executable, str(LOAD), str(CDRS)).splitlines()):
            if rng.random() < 0.5:
                line = line.replace(b",", b',"request_id":"%d",' % number, 1)
            self.lines.append(line)
            again = rng.choice(self.lines[-200:])
            if rng.random() < 0.2 and b'"request_id"' in again:
                self.lines.append(again)

    def platform(self, party: str) -> str:
        return next(str(item["name"]) for item in self.configuration["platforms"] if party in item["parties"])

    def folded(self, *more: bytes) -> tuple[Registers, list[dict[str, Any]]]:
        """The registers of the stream, and the answers to more lines after it."""
        lines = [*self.lines, *more]
        given = b"".join(line + b"\n" for line in lines)
        answers = output(PROGRAM, "stream", str(self.config), given=given).splitlines()
        registers = Registers()
        registers.begin(self.configuration)
        for number, (line, answer) in enumerate(zip(lines, answers, strict=True), 1):
            registers.fold(number, line, answer, None)
        return registers, [json.loads(answer) for answer in answers[len(self.lines) :]]


@pytest.fixture(scope="module")
def stream(tmp_path_factory: pytest.TempPathFactory) -> Stream:
    return Stream(tmp_path_factory.mktemp("stream"))


def line(platform: str, do: str, **members: object) -> bytes:
    return json.dumps({"platform": platform, "do": do, **members}).encode()


def test_holds_and_events(stream: Stream) -> None:
    pairs = [(p["party"], row["currency"]) for p in stream.configuration["providers"] for row in p["limits"]]
    asked = [
        line(stream.platform(party), "exposure", provider=party, currency=money) for party, money in pairs
    ]
    registers, answers = stream.folded(*asked)
    for (party, money), answer in zip(pairs, answers, strict=True):
        holds = [
            hold for hold in registers.holds.values() if (hold.provider, hold.currency) == (party, money)
        ]
        assert sum((Decimal(hold.amount) for hold in holds), Decimal(0)) == Decimal(answer["holds"])
    assert registers.events == answers[0]["at"] and len(registers.holds) > 10


def test_cdrs(stream: Stream) -> None:
    registers, _ = stream.folded()
    found = list(registers.cdrs.entries())
    asked = [
        line(stream.platform(each.operator), "find", operator=each.operator, id=each.id) for each in found
    ]
    _, answers = stream.folded(*asked)
    assert len(found) > CDRS - 1
    for each, answer in zip(found, answers, strict=True):
        assert (each.amount, each.period, each.credited) == (
            answer["amount"],
            answer["period"],
            answer["credited"],
        )


def test_statements(stream: Stream) -> None:
    registers, _ = stream.folded()
    assert len(registers.periods) > 0
    parties = [item["party"] for kind in ("operators", "providers") for item in stream.configuration[kind]]
    asked = [
        (period, party, line(stream.platform(party), "statement", party=party, period=period))
        for period in range(len(registers.periods))
        for party in parties
    ]
    _, answers = stream.folded(*(each for _, _, each in asked))
    for (period, party, _), answer in zip(asked, answers, strict=True):
        sums: dict[tuple[str, str], Decimal] = {}
        for each in registers.cdrs.of(period, party):
            other, sign = (each.provider, 1) if each.operator == party else (each.operator, -1)
            key = (each.currency, other)
            sums[key] = sums.get(key, Decimal(0)) + sign * Decimal(each.amount)
        assert sums == {(row["currency"], row["counterpart"]): Decimal(row["net"]) for row in answer["rows"]}


def test_positions(stream: Stream) -> None:
    registers, _ = stream.folded()
    for each in registers.periods:
        for row in each.positions:
            entries = [
                it for it in registers.cdrs.of(each.period, row["party"]) if it.currency == row["currency"]
            ]
            signed = [Decimal(it.amount) * (1 if it.operator == row["party"] else -1) for it in entries]
            assert sum(signed, Decimal(0)) == Decimal(row["net"])


def balances(registers: Registers) -> list[list[str]]:
    """The register's balances, as `clear balances` writes them."""
    configuration = registers.in_force
    places = configuration.places
    found = registers.balances.rows(
        configuration.currencies, lambda pair: (places[pair.operator], places[pair.provider])
    )
    return [
        [
            str(each.period),
            each.currency,
            *(str(configuration.spelled(party)) for party in each.pair),
            *(written(amount) for amount in (each.owed, each.settled, each.owed - each.settled)),
        ]
        for each in found
    ]


def credited_later(registers: Registers) -> set[Debtor]:
    """Whose debts a Credit CDR of another period changes, in both periods."""
    found = set()
    for each in registers.cdrs.entries():
        original = registers.cdrs.find(each.operator, each.credits) if each.credits else None
        if original is not None and original.period != each.period:
            found |= {original.debtor, each.debtor}
    return found


def test_balances(stream: Stream) -> None:
    registers, _ = stream.folded()
    providers = [item["party"] for item in stream.configuration["providers"]]
    hub = next(item["name"] for item in stream.configuration["platforms"] if item.get("hub"))
    more = [
        line(hub, "settle", provider=provider, currency=currency, period=period)
        for period in range(len(registers.periods))
        for provider in providers[::2]
        for currency in stream.configuration["currencies"]
        if Debtor(folded(provider), currency, period) not in credited_later(registers)
    ]
    registers, _ = stream.folded(*more)
    given = b"".join(each + b"\n" for each in [*stream.lines, *more])
    printed = output(PROGRAM, "balances", str(stream.config), given=given).decode()
    header, *rows = csv.reader(io.StringIO(printed))
    assert header == "period currency operator provider owed settled open".split()
    assert len(rows) > 10 and any(row[5] != "0.0000" for row in rows)
    assert balances(registers) == rows


def test_a_settlement_squares_the_net() -> None:
    """What is settled is what was owed in the period, net of Credit CDRs, and nothing is open then."""
    owed = Owed()
    sums = Balances(owed)
    pair, other = Pair("nl/cpa", "nl/msa"), Pair("nl/cpb", "nl/msa")
    for period, of_pair, amount in (
        (0, pair, 50_000),
        (0, other, 70_000),
        (1, pair, 20_000),
        (1, pair, -50_000),
    ):
        sums.book(period, "EUR", of_pair, amount)
    owed.settle(Debtor("nl/msa", "EUR", 1))
    places = {"nl/cpa": 0, "nl/cpb": 1, "nl/msa": 2}
    rows = sums.rows(["EUR"], lambda it: (places[it.operator], places[it.provider]))
    assert [(each.period, each.pair.operator, each.owed, each.settled) for each in rows] == [
        (0, "nl/cpa", 50_000, 0),
        (0, "nl/cpb", 70_000, 0),
        (1, "nl/cpa", -30_000, -30_000),
    ]
