"""The table of refusals, row by row: under /ocpi if a request of OCPI can get the refusal, and under /clearing."""

from __future__ import annotations

import json
import re
from pathlib import Path
from typing import Any

import httpx
import pytest
from clear_service.answers import BY_NUMBER, REFUSALS

from conftest import Make, Service
from examples import (
    AUTHORIZE,
    CDRS,
    CONFIGURATION,
    FROM,
    Object,
    TARIFF,
    TARIFFS,
    TOKEN,
    TOKENS,
    cdr,
    changed,
    credit,
    line,
    tariff,
)

Sent = tuple[str, str, str, object]  # platform, method, path, and the object or the bytes of the body
DOCUMENT = Path(__file__).resolve().parents[2] / "docs" / "SERVICE.md"
DEEP = b'{"country_code":"NL","party_id":"CPA","id":"G1","x":' + b"[" * 200 + b"]" * 200 + b"}"
TARIFF_POWER = changed(TARIFF, elements=[{**TARIFF["elements"][0], "restrictions": {"max_power": 11}}])
EXPENSIVE = {**cdr(kwh=100001, cost=1), "tariffs": [tariff(price=1000)]}
EARLY = cdr(charging_periods=[{**cdr()["charging_periods"][0], "start_date_time": "2024-07-01T09:00:00Z"}])
OTHER_ID = cdr(charging_periods=[{**cdr()["charging_periods"][0], "tariff_id": "G9"}])
RESERVED = cdr()
RESERVED["charging_periods"][0]["dimensions"].append({"type": "RESERVATION_TIME", "volume": 0.1})


def no_contract() -> Object:
    """The token without one of its members."""
    return {name: value for name, value in TOKEN.items() if name != "contract_id"}


PUT_TARIFF = ("cpo", "PUT", TARIFFS, TARIFF)
PUT_TOKEN = ("emp", "PUT", TOKENS, TOKEN)
POST = ("cpo", "POST", CDRS, cdr())

# The number of the refusal, the requests before, and the request that is refused.
OCPI_ROWS = [
    (1, [], ("cpo", "PUT", TARIFFS, DEEP)),
    (2, [], ("emp", "PUT", TOKENS, changed(TOKEN, valid=None))),
    (2, [], ("cpo", "POST", CDRS, cdr("x" * 37))),
    (3, [], ("cpo", "POST", CDRS, cdr(party="CPX"))),
    (4, [], ("cpb", "POST", CDRS, cdr())),
    (5, [], ("cpo", "POST", CDRS, cdr(currency="USD"))),
    (6, [], ("cpo", "POST", CDRS, EARLY)),
    (7, [], ("cpo", "POST", CDRS, OTHER_ID)),
    (8, [], ("cpo", "PUT", TARIFFS, TARIFF_POWER)),
    (9, [], ("cpo", "POST", CDRS, RESERVED)),
    (10, [], ("cpo", "POST", CDRS, cdr(total_energy=20.011))),
    (11, [], ("cpo", "POST", CDRS, EXPENSIVE)),
    (12, [], ("cpo", "POST", CDRS, cdr(cost=5.02))),
    (13, [PUT_TARIFF], ("cpo", "PUT", TARIFFS, tariff(price=0.26))),
    (13, [PUT_TARIFF, POST], ("cpo", "POST", CDRS, cdr(kwh=20.001))),
    (14, [], POST),
    (15, [], ("cpo", "POST", AUTHORIZE, None)),
    (17, [], ("cpo", "POST", CDRS, credit("S9-C", "S9"))),
    (
        18,
        [PUT_TARIFF, POST, ("cpo", "POST", CDRS, credit("C", "S1"))],
        ("cpo", "POST", CDRS, credit("D", "C")),
    ),
    (
        19,
        [PUT_TARIFF, POST, ("cpo", "POST", CDRS, credit("C", "S1"))],
        ("cpo", "POST", CDRS, credit("D", "S1")),
    ),
    (20, [PUT_TARIFF, POST], ("cpo", "POST", CDRS, credit("C", "S1", -4.98))),
    (24, [], ("cpo", "GET", CDRS + "/S1", None)),
    (26, [PUT_TARIFF, ("cpo", "POST", CDRS, cdr("S0", 400, 100))], POST),
]


def send(service: Service, request: Sent, **headers: str) -> httpx.Response:
    platform, method, path, body = request
    content = body if isinstance(body, bytes | None) else json.dumps(body).encode()
    return service.send(platform, method, path, content=content, headers=headers)


def is_refused(response: httpx.Response, number: int) -> bool:
    row = BY_NUMBER[number]
    members = response.json()
    assert response.status_code == row.ocpi_http, response.text
    assert members["status_code"] == row.status_code
    assert members["status_message"].partition(":")[0] == row.name
    return "data" not in members


@pytest.mark.parametrize(
    "number, before, request_", OCPI_ROWS, ids=lambda it: str(it)[:2] if isinstance(it, int) else ""
)
def test_ocpi(service: Service, number: int, before: list[Any], request_: Any) -> None:
    for each in before:
        assert send(service, each).json()["status_code"] == 1000
    events = service.health()["events"]
    assert is_refused(send(service, request_), number)
    assert service.health()["events"] == events


def test_ocpi_full(make: Make, tmp_path: Path) -> None:
    service = make_with(make, tmp_path, limits={"cdrs": 1})
    for each in (PUT_TARIFF, POST):
        assert send(service, each).json()["status_code"] == 1000
    assert is_refused(send(service, ("cpo", "POST", CDRS, cdr("S2"))), 25)


def test_ocpi_too_late(service: Service) -> None:
    for each in (PUT_TARIFF, POST):
        assert send(service, each).json()["status_code"] == 1000
    service.lines("hub", line("close", period=0))
    assert is_refused(send(service, ("cpo", "POST", CDRS, credit("C", "S1"))), 28)


def test_ocpi_request_id_used(service: Service) -> None:
    assert send(service, PUT_TOKEN, **{"X-Request-ID": "a"}).status_code == 200
    assert is_refused(
        send(service, ("emp", "PUT", TOKENS, changed(TOKEN, valid=False)), **{"X-Request-ID": "a"}), 30
    )


def test_ocpi_request_id_too_long(service: Service) -> None:
    response = send(service, PUT_TOKEN, **{"X-Request-ID": "a" * 65})
    assert response.status_code == 400 and "64 printable" in response.json()["status_message"]
    assert service.health()["lines"] == 0


def test_values_of_a_refusal(service: Service) -> None:
    assert send(service, PUT_TARIFF).status_code == 200
    response = send(service, ("cpo", "POST", CDRS, cdr("S0", 404, 101)))
    assert response.json()["status_message"] == "OverLimit: exposure 101.0000, limit 100.0000"


CAUSES = [
    (("cpo", "PUT", TARIFFS, DEEP), "Syntax: no JSON"),
    (
        ("emp", "PUT", TOKENS, changed(TOKEN, valid=None)),
        "Field: token.valid: of a wrong kind or out of bounds, found null, expected true or false",
    ),
    (("emp", "PUT", TOKENS, no_contract()), "Field: token.contract_id: missing, found nothing, expected"),
    (("cpo", "POST", CDRS, cdr(party="CPX")), "UnknownParty: cdr: configured as no operator, found NL/CPX"),
    (
        ("cpb", "POST", CDRS, cdr()),
        "NotYours: platform: does not act for the party, found cpb, expected NL/CPA",
    ),
    (("cpo", "POST", CDRS, cdr(currency="USD")), "WrongCurrency: cdr.currency: not configured, found USD"),
    (
        ("cpo", "POST", CDRS, EARLY),
        "BadDates: cdr.charging_periods[0].start_date_time: before the moment in front of it, "
        "found 2024-07-01T09:00:00Z, expected 2024-07-01T10:00:00Z",
    ),
    (
        ("cpo", "POST", CDRS, OTHER_ID),
        "TariffNotGiven: cdr.charging_periods[0].tariff_id: id of no tariff of the CDR, found G9",
    ),
    (
        ("cpo", "PUT", TARIFFS, TARIFF_POWER),
        "UnsupportedRestriction: tariff.elements[0].restrictions.max_power: "
        "bounds on current and power are not supported",
    ),
    (
        ("cpo", "POST", CDRS, RESERVED),
        "Reservation: cdr.charging_periods[0].dimensions[1].volume: time of reservation, found 0.100000",
    ),
    (
        ("cpo", "POST", CDRS, cdr(total_energy=20.011)),
        "EnergyMismatch: cdr.total_energy: not the sum of ENERGY, found 20.011000, expected 20.000000",
    ),
    (
        ("cpo", "POST", CDRS, EXPENSIVE),
        "AmountTooLarge: cdr: rated above the largest amount, expected 100000000.0000",
    ),
    (
        ("cpo", "POST", CDRS, cdr(cost=5.02)),
        "CostMismatch: rated 5.0000; cdr.total_cost.excl_vat: "
        "farther from the rated cost than the tolerance, found 5.020000, expected 5.0000",
    ),
]


@pytest.mark.parametrize(
    "request_, message", CAUSES, ids=[message.partition(":")[0] for _, message in CAUSES]
)
def test_the_cause_of_a_refusal(service: Service, request_: Sent, message: str) -> None:
    assert send(service, request_).json()["status_message"].startswith(message)


def test_a_refusal_that_comes_again_has_its_cause(service: Service) -> None:
    """Also after a restart; under /clearing answers have no cause."""
    wrong = ("cpo", "POST", CDRS, cdr(cost=5.02))
    first = send(service, wrong, **{"X-Request-ID": "a"}).json()["status_message"]
    assert "found 5.020000" in first
    assert send(service, wrong, **{"X-Request-ID": "a"}).json()["status_message"] == first
    service.stop()
    service.start()
    assert send(service, wrong, **{"X-Request-ID": "a"}).json()["status_message"] == first
    (answer,) = service.lines("cpo", line("post", cdr=cdr(cost=5.02)))
    assert answer == {"status_code": 2000, "refusal": "CostMismatch", "number": 12, "rated": "5.0000"}
    refused = service.send("cpo", "POST", "/clearing/close", json={"period": 0}).json()
    assert refused == {"status_code": 2000, "refusal": "NotYours", "number": 4}


def test_text_that_is_not_json(service: Service) -> None:
    for body in (b"", b"{", b"{} {}", b"[]", b"7", b"\xff", b'{"a":"\x01"}', b'{},"platform":"hub"'):
        response = service.send("cpo", "PUT", TARIFFS, content=body)
        assert (response.status_code, response.json()["status_code"]) == (400, 2001)
    assert service.health()["lines"] == 0


def make_with(make: Make, folder: Path, **members: Any) -> Service:
    """A service with other members of its configuration."""
    (folder / "config.json").write_text(json.dumps({**CONFIGURATION, **members}))
    return make(folder=folder)


CLOSE = ("hub", "/clearing/close", {"period": 0})
SETTLE = {"provider": "NL/MSA", "currency": "EUR", "period": 0}
CLEARING_ROWS = [
    (2, [], ("hub", "/clearing/close", {"period": "x"})),
    (2, [], ("hub", "/clearing/close", {})),
    (3, [], ("hub", "/clearing/settlements", changed(SETTLE, provider="NL/XXX"))),
    (4, [], ("cpo", "/clearing/close", {"period": 0})),
    (5, [], ("hub", "/clearing/settlements", changed(SETTLE, currency="USD"))),
    (21, [], ("hub", "/clearing/close", {"period": 1})),
    (22, [], ("hub", "/clearing/settlements", SETTLE)),
    (23, [CLOSE, ("hub", "/clearing/settlements", SETTLE)], ("hub", "/clearing/settlements", SETTLE)),
]


@pytest.mark.parametrize("number, before, request_", CLEARING_ROWS)
def test_clearing(service: Service, number: int, before: list[Any], request_: Any) -> None:
    for platform, path, body in before:
        assert service.send(platform, "POST", path, json=body).status_code == 200
    platform, path, body = request_
    response = service.send(platform, "POST", path, json=body)
    assert response.status_code == BY_NUMBER[number].clearing_http
    assert response.json()["number"] == number
    assert response.json()["status_code"] == BY_NUMBER[number].status_code


def test_clearing_of_statements(service: Service) -> None:
    assert service.get("cpo", "/clearing/statements/0/NL-CPA").json()["refusal"] == "PeriodOpen"
    assert service.get("cpo", "/clearing/statements/0/NL-CPA").status_code == 409
    assert service.get("cpo", "/clearing/statements/0/NL-CPX").status_code == 404
    assert service.get("cpo", "/clearing/statements/0/NL-CPB").status_code == 403
    assert service.get("cpo", "/clearing/statements/x/NL-CPA").status_code == 400
    assert service.get("cpo", "/clearing/statements/0/CPA").status_code == 400


def test_clearing_full(make: Make, tmp_path: Path) -> None:
    service = make_with(make, tmp_path, limits={"periods": 1})
    assert service.send("hub", "POST", "/clearing/close", json={"period": 0}).status_code == 200
    response = service.send("hub", "POST", "/clearing/close", json={"period": 1})
    assert (response.status_code, response.json()["what"]) == (507, "Periods")


def test_clearing_request_id_used(service: Service) -> None:
    ids = {"X-Request-ID": "a"}
    assert service.send("hub", "POST", "/clearing/close", json={"period": 0}, headers=ids).status_code == 200
    response = service.send("hub", "POST", "/clearing/close", json={"period": 1}, headers=ids)
    assert (response.status_code, response.json()["refusal"]) == (409, "RequestIdUsed")


def test_a_change_that_comes_out_otherwise(service: Service) -> None:
    send(service, PUT_TOKEN)
    send(service, ("cpo", "POST", AUTHORIZE, None), **FROM)
    limits = [{"currency": "EUR", "limit": 1000000, "hold": 1}]
    new = changed(CONFIGURATION, providers=[{"party": "NL/MSA", "limits": limits}])
    (answer,) = service.lines("hub", line("configure", configuration=new))
    assert (answer["refusal"], answer["number"]) == ("ComesOutOtherwise", 29)


def test_the_document_has_the_table() -> None:
    text = DOCUMENT.read_text(encoding="utf-8")
    rows = re.findall(r"^\| (\d+) \| (\w+) \| (\d+) \| (\d+) \| (\d+) \|$", text, re.MULTILINE)
    wanted = [(row.number, row.name, row.ocpi_http, row.status_code, row.clearing_http) for row in REFUSALS]
    assert [(int(n), name, int(o), int(s), int(c)) for n, name, o, s, c in rows] == wanted


def test_each_refusal_has_a_row() -> None:
    rules = (DOCUMENT.parent / "RULES.md").read_text(encoding="utf-8")
    rows = re.findall(r"^\| (\d+) \| (\w+) \| .* \| (\d{4}) \|$", rules, re.MULTILINE)
    assert {(int(n), name, int(s)) for n, name, s in rows} - {(27, "NoMemory", 3000)} == {
        (row.number, row.name, row.status_code) for row in REFUSALS
    }
