"""Clearing: bulk lines, closes, settlements, statements, balances, exposure, holds."""

from __future__ import annotations

import csv
import io
import json
import subprocess
from decimal import Decimal

import httpx
import pytest

from conftest import Make, MakeStore, Service
from examples import (
    AUTHORIZE,
    CDRS,
    CONFIGURATION,
    TARIFF,
    TARIFFS,
    TOKEN,
    TOKENS,
    cdr,
    changed,
    credit,
    line,
    tariff,
)

EXPOSURE = line("exposure", provider="NL/MSA", currency="EUR")


def rows_of(response: httpx.Response) -> list[dict[str, str]]:
    assert response.status_code == 200, response.text
    assert response.headers["content-type"].startswith("text/csv")
    return list(csv.DictReader(io.StringIO(response.text)))


def a_month(service: Service) -> None:
    """Two operators, three CDRs and a Credit CDR of one; the first period is closed and settled."""
    service.lines("emp", line("put_token", token=TOKEN))
    for platform, party in (("cpo", "CPA"), ("cpb", "CPB")):
        answers = service.lines(
            platform,
            line("put_tariff", tariff=tariff(party)),
            line("post", cdr=cdr("S1", party=party)),
            line("post", cdr=cdr("S2", 10, 2.5, party=party)),
        )
        assert [answer["answer"] for answer in answers] == ["Stored", "Accepted", "Accepted"]
    service.lines("cpo", line("post", cdr=credit("S1-C", "S1")), line("post", cdr=cdr("S3", 1, 0.25)))
    closed = service.send("hub", "POST", "/clearing/close", json={"period": 0})
    assert closed.json()["answer"] == "Closed"
    settled = service.send(
        "hub", "POST", "/clearing/settlements", json={"provider": "NL/MSA", "currency": "EUR", "period": 0}
    )
    assert settled.json()["amount"] == "10.2500"


def test_lines(service: Service) -> None:
    service.lines("emp", line("put_token", token=TOKEN))
    service.lines("cpo", line("authorize", operator="NL/CPA", provider="NL/MSA", uid="U1", currency="EUR"))
    body = b'{"platform":"emp","do":"exposure","provider":"NL/MSA","currency":"EUR"}\n' + EXPOSURE.encode()
    response = service.send("emp", "POST", "/clearing/lines", content=body)
    assert response.headers["content-type"] == "application/jsonl"
    wanted = b'{"status_code":1000,"answer":"Exposure","at":2,"holds":"20.0000","debts":"0.0000","limit":"100.0000"}\n'
    assert response.content == wanted * 2
    assert service.send("emp", "POST", "/clearing/lines", content=b"").content == b""


@pytest.mark.parametrize(
    "other",
    [
        '{"platform":"cpo","do":"exposure"}',
        '{"platform":"emp","do":"exposure","platform":"hub"}',
        '{"platform":"emp","do":"exposure","plat\\u0066orm":"hub"}',
        '{"plat\\u0066orm":"hub","do":"close","period":0}',
        '{"platform":null,"do":"exposure"}',
        '{"platform":["emp"],"do":"exposure"}',
        '{"do":"close","platform":"hub","period":0,"x":{"platform":"emp"}}',
    ],
)
def test_another_platform_is_forbidden(service: Service, other: str) -> None:
    body = (EXPOSURE + "\n" + other + "\n").encode()
    response = service.send("emp", "POST", "/clearing/lines", content=body)
    assert response.status_code == 403
    assert response.json() == {"error": "line 2 names another platform than that of the token"}
    assert service.health()["lines"] == 0


@pytest.mark.parametrize(
    "other", ["", "[]", "{", "7", '{"platform":"emp"} {}', '{"do":"exposure"}x', "\ufeff{}"]
)
def test_a_line_that_is_no_object(service: Service, other: str) -> None:
    body = (EXPOSURE + "\n" + other + "\n" + EXPOSURE).encode()
    response = service.send("emp", "POST", "/clearing/lines", content=body)
    assert (response.status_code, response.json()) == (400, {"error": "line 2 is no JSON object"})
    assert service.health()["lines"] == 0


def test_spellings_of_the_own_platform(service: Service) -> None:
    lines = ['{"platform":"EMP",' + EXPOSURE[1:], ' {"do":"x"}', "{}", "{ }", '{"platform" : "emp","do":"x"}']
    names = [answer.get("answer") or answer["field"] for answer in service.lines("emp", *lines)]
    assert names == ["Exposure", "do", "do", "do", "do"]


def test_statements(service: Service) -> None:
    a_month(service)
    statement = service.get("cpo", "/clearing/statements/0/NL-CPA").json()
    row = {
        "currency": "EUR",
        "counterpart": "NL/MSA",
        "receivable": "2.7500",
        "payable": "0.0000",
        "net": "2.7500",
    }
    assert statement == {"period": 0, "party": "NL/CPA", "rows": [row]}
    lines = service.health()["lines"]
    assert service.get("hub", "/clearing/statements/0/nl-cpa").json() == statement
    assert service.get("both", "/clearing/statements/0/NL-CPA").json() == statement
    assert service.health()["lines"] == lines
    assert service.get("cpb", "/clearing/statements/0/NL-CPA").status_code == 403
    assert service.get("emp", "/clearing/statements/0/NL-MSA").json()["rows"][0]["counterpart"] == "NL/CPA"


def test_statements_as_csv(service: Service, engine: str) -> None:
    a_month(service)
    answer = service.get("hub", "/clearing/statements/0/NL-MSA", headers={"Accept": "text/csv"})
    assert answer.text == service.get("emp", "/clearing/statements/0/NL-MSA/statement.csv").text
    if engine == "keep":
        words = [service.settings.program, "statements", "--store", service.settings.store]
        printed = subprocess.run(words, capture_output=True, text=True, check=True).stdout
        assert "statement 0 NL/MSA\n" + answer.text in printed


def test_cdrs_of_a_statement(service: Service) -> None:
    a_month(service)
    for party, platform in (("NL-CPA", "cpo"), ("NL-CPB", "cpb"), ("NL-MSA", "emp")):
        rows = rows_of(service.get(platform, f"/clearing/statements/0/{party}/cdrs.csv"))
        for each in service.get(platform, f"/clearing/statements/0/{party}").json()["rows"]:
            sums = {"operator": Decimal(0), "provider": Decimal(0)}
            for row in rows:
                for side, other in (("operator", "provider"), ("provider", "operator")):
                    if row[side] == party.replace("-", "/") and row[other] == each["counterpart"]:
                        sums[side] += Decimal(row["amount"])
            assert [sums["operator"], sums["provider"]] == [
                Decimal(each["receivable"]),
                Decimal(each["payable"]),
            ]
    rows = rows_of(service.get("hub", "/clearing/statements/0/NL-CPA/cdrs.csv"))
    assert [(row["id"], row["amount"], row["credited"]) for row in rows] == [
        ("S1", "5.0000", "true"),
        ("S2", "2.5000", "false"),
        ("S1-C", "-5.0000", "false"),
        ("S3", "0.2500", "false"),
    ]
    assert rows[1] == {
        "currency": "EUR",
        "operator": "NL/CPA",
        "provider": "NL/MSA",
        "id": "S2",
        "session_id": "SES-S2",
        "start": "2024-07-01T10:00:00Z",
        "end": "2024-07-01T11:00:00Z",
        "energy": "10",
        "amount": "2.5000",
        "credited": "false",
        "period": "0",
    }


def test_balances(service: Service) -> None:
    a_month(service)
    balances = service.get("hub", "/clearing/balances").json()
    assert balances == [
        {"period": 0, "currency": "EUR", "operator": f"NL/{party}", "provider": "NL/MSA", **amounts}
        for party, amounts in (
            ("CPA", {"owed": "2.7500", "settled": "2.7500", "open": "0.0000"}),
            ("CPB", {"owed": "7.5000", "settled": "7.5000", "open": "0.0000"}),
        )
    ]
    assert service.get("cpb", "/clearing/balances").json() == balances[1:]
    assert service.get("emp", "/clearing/balances").json() == balances
    rows = rows_of(service.get("hub", "/clearing/balances", headers={"Accept": "text/csv"}))
    assert rows == [{**row, "period": str(row["period"])} for row in balances]
    service.lines("cpo", line("post", cdr=cdr("S4", 2, 0.5)))
    assert service.get("cpo", "/clearing/balances").json()[1]["open"] == "0.5000"


def test_exposure(service: Service) -> None:
    a_month(service)
    service.lines("cpo", line("authorize", operator="NL/CPA", provider="NL/MSA", uid="U1", currency="EUR"))
    amounts = {"holds": "20.0000", "debts": "0.0000", "limit": "100.0000"}
    wanted = [{"provider": "NL/MSA", "currency": "EUR", **amounts}]
    assert service.get("emp", "/clearing/exposure").json() == wanted
    assert service.get("hub", "/clearing/exposure").json() == wanted
    lines = service.health()["lines"]
    assert service.get("emp", "/clearing/exposure").json() == wanted
    assert service.health()["lines"] == lines
    assert service.get("cpo", "/clearing/exposure").json() == []
    assert service.get("hub", "/clearing/exposure?provider=nl/msa&currency=EUR").json() == wanted
    assert service.get("cpo", "/clearing/exposure?provider=NL/MSA").status_code == 403
    assert service.get("hub", "/clearing/exposure?provider=NL/XXX").status_code == 404
    assert service.get("hub", "/clearing/exposure?currency=USD").status_code == 422


def test_exposure_without_a_platform(service: Service) -> None:
    """A hub reads the other providers if nobody acts for one, and is told so if it names that one."""
    providers = [*CONFIGURATION["providers"], {"party": "NL/MSX"}]
    (answer,) = service.lines(
        "hub", line("configure", configuration=changed(CONFIGURATION, providers=providers))
    )
    assert answer["answer"] == "Configured"
    assert [row["provider"] for row in service.get("hub", "/clearing/exposure").json()] == ["NL/MSA"]
    assert service.get("hub", "/clearing/exposure?provider=NL/MSX").status_code == 403


def hold_sums(service: Service) -> None:
    """The holds that are shown add up to the house's own sum."""
    (exposure,) = service.get("hub", "/clearing/exposure").json()
    holds = service.get("hub", "/clearing/holds").json()
    assert sum(Decimal(hold["amount"]) for hold in holds) == Decimal(exposure["holds"])


def test_holds(make: Make) -> None:
    service = make(hold_seconds=0)
    service.send("emp", "PUT", TOKENS, json=TOKEN)
    service.send("cpo", "PUT", TARIFFS, json=TARIFF)
    for _ in range(4):
        service.send("cpo", "POST", AUTHORIZE)
    hold_sums(service)
    service.send("cpo", "POST", CDRS, json=cdr(authorization_reference="nlmsa-1"))
    release = {"operator": "NL/CPA", "provider": "NL/MSA"}
    service.lines(
        "cpo", line("release", **release, reference="NLMSA-2"), line("release", **release, reference="x")
    )
    hold_sums(service)
    holds = service.get("hub", "/clearing/holds").json()
    assert [hold["reference"] for hold in holds] == ["NLMSA-3", "NLMSA-4"]
    assert (
        holds[0]["operator"] == "NL/CPA"
        and holds[0]["provider"] == "NL/MSA"
        and holds[0]["amount"] == "20.0000"
    )
    assert holds[0]["since"] is not None and 0 <= holds[0]["age_seconds"] < 60 and holds[0]["may_be_released"]
    assert len(service.get("emp", "/clearing/holds").json()) == 2
    assert service.get("cpb", "/clearing/holds").json() == []
    assert service.send("cpo", "POST", "/clearing/holds/NLMSA-3/release").status_code == 403
    released = service.send("hub", "POST", "/clearing/holds/nlmsa-3/release")
    assert released.json()["amount"] == "20.0000"
    assert service.send("hub", "POST", "/clearing/holds/NLMSA-3/release").status_code == 404
    hold_sums(service)
    assert service.send("cpo", "POST", "/clearing/holds/release").status_code == 403
    service.send("cpo", "POST", AUTHORIZE)
    rows = service.send("hub", "POST", "/clearing/holds/release").json()
    assert [(row["reference"], row["answer"]) for row in rows] == [
        ("NLMSA-4", "Released"),
        ("NLMSA-5", "Released"),
    ]
    assert service.send("hub", "POST", "/clearing/holds/release").json() == []
    hold_sums(service)


def test_a_young_hold_is_not_released(make: Make) -> None:
    service = make(hold_seconds=60)
    service.send("emp", "PUT", TOKENS, json=TOKEN)
    service.send("cpo", "POST", AUTHORIZE)
    assert not service.get("hub", "/clearing/holds").json()[0]["may_be_released"]
    assert service.send("hub", "POST", "/clearing/holds/NLMSA-1/release").status_code == 409
    assert service.send("hub", "POST", "/clearing/holds/release").json() == []
    assert service.health()["events"] == 2


def test_periods(service: Service) -> None:
    assert service.get("hub", "/clearing/periods").json() == {"current": 0, "closed": []}
    a_month(service)
    periods = service.get("hub", "/clearing/periods").json()
    assert periods["current"] == 1
    nets = {row["party"]: row["net"] for row in periods["closed"][0]["positions"]}
    assert nets == {"NL/CPA": "2.7500", "NL/CPB": "7.5000", "NL/MSA": "-10.2500"}
    (closed,) = service.get("cpb", "/clearing/periods").json()["closed"]
    assert [row["party"] for row in closed["positions"]] == ["NL/CPB"]


def test_refusals(service: Service) -> None:
    service.lines("hub", line("close", period=7), line("close", period=7))
    service.send("cpo", "POST", AUTHORIZE)
    counts = service.get("hub", "/clearing/refusals").json()
    wanted = [("cpo", "UnknownToken", 1), ("hub", "NotCurrent", 2)]
    assert [(row["platform"], row["name"], row["count"]) for row in counts] == wanted
    assert service.get("cpo", "/clearing/refusals?hours=1").json() == counts[:1]
    assert service.get("cpo", "/clearing/refusals?hours=x").status_code == 400
    assert service.get("cpo", "/clearing/refusals?hours=0").json() == []
    assert service.get("cpo", "/clearing/refusals?hours=" + "9" * 400).status_code == 400


def test_all_is_there_after_a_restart(make: Make, make_store: MakeStore) -> None:
    store = make_store()
    service = make(store)
    a_month(service)
    for _ in range(2):
        service.send("cpo", "POST", AUTHORIZE, headers={"X-Request-ID": "a"})
    service.send("cpo", "POST", AUTHORIZE)
    paths = [
        "/clearing/holds",
        "/clearing/periods",
        "/clearing/balances",
        "/clearing/statements/0/NL-CPA/cdrs.csv",
        "/clearing/statements/0/NL-MSA",
        "/clearing/exposure",
    ]
    before = [without_ages(service.get("hub", path)) for path in paths]
    posted = service.get("cpo", f"{CDRS}/S2").json()["data"]
    events = service.health()["events"]
    service.stop()
    again = make(store)
    assert [without_ages(again.get("hub", path)) for path in paths] == before
    assert again.get("cpo", f"{CDRS}/S2").json()["data"] == posted
    assert again.health()["events"] == events == 13


def without_ages(response: httpx.Response) -> str:
    assert response.status_code == 200
    if "age_seconds" in response.text:
        return json.dumps([{**row, "age_seconds": 0} for row in response.json()])
    return response.text


def test_a_change_of_the_configuration(make: Make, make_store: MakeStore) -> None:
    store = make_store()
    service = make(store)
    a_month(service)
    new = changed(CONFIGURATION, currencies=["EUR", "SEK"])
    new["operators"] = [*new["operators"], {"party": "BE/CPC", "zone": "+01:00"}]
    new["platforms"] = [*new["platforms"], {"name": "cpc", "parties": ["BE/CPC"]}]
    change = '{"request_id":"c1",' + line("configure", configuration=new)[1:]
    back = '{"request_id":"c2",' + line("configure", configuration=CONFIGURATION)[1:]
    assert service.lines("hub", change)[0]["answer"] == "Configured"
    assert len(service.get("hub", "/clearing/exposure").json()) == 2
    assert service.get("hub", "/clearing/statements/0/BE-CPC").json()["rows"] == []
    assert service.lines("hub", back)[0]["answer"] == "Configured"
    assert service.lines("hub", change)[0]["answer"] == "Configured"
    assert len(service.get("hub", "/clearing/exposure").json()) == 1
    assert service.lines("hub", change.replace("c1", "c3"))[0]["answer"] == "Configured"
    service.stop()
    again = make(store)
    assert len(again.get("hub", "/clearing/exposure").json()) == 2
    assert again.lines("hub", line("close", period=1))[0]["answer"] == "Closed"


def test_settlements_and_closes_again_by_their_id(service: Service) -> None:
    a_month(service)
    ids = {"X-Request-ID": "c"}
    first = service.send("hub", "POST", "/clearing/close", json={"period": 1}, headers=ids)
    again = service.send("hub", "POST", "/clearing/close", json={"period": 1}, headers=ids)
    assert first.content == again.content
    assert service.get("hub", "/clearing/periods").json()["current"] == 2
