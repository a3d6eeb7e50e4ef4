"""What a sender may know and write: ids, releases by a hub, CSV, links, parameters, currencies."""

from __future__ import annotations

import csv
import io
import json
import subprocess
from pathlib import Path

import pytest
from clear_service.rows import safe_cell
from conftest import Make, Service
from examples import AUTHORIZE, CDRS, CONFIGURATION, FROM, TARIFFS, TOKEN, TOKENS, cdr, changed, line, tariff
from test_access import request as raw_request
from test_access import talk

RELEASE = "/clearing/holds/NLMSA-1/release"


@pytest.mark.parametrize("name", ["X-Request-ID", "X-Correlation-ID"])
@pytest.mark.parametrize("value", ["a\tb", "a" * 65, "é", "\x7f"])
def test_an_id_that_is_malformed_does_nothing(service: Service, name: str, value: str) -> None:
    body = json.dumps(TOKEN).encode()
    head = f"PUT {TOKENS} HTTP/1.1\r\nConnection: close\r\n{name}: {value}\r\nContent-Length: {len(body)}"
    answer = talk(service, raw_request(service, "emp", head, b"\r\n" + body))
    assert answer.startswith(b"HTTP/1.1 400 "), answer
    assert name.lower().encode() in answer or b"Invalid HTTP" in answer
    assert service.health()["lines"] == 0


def test_an_id_of_64_printable_bytes(service: Service) -> None:
    value = "~ " * 31 + "ab"
    response = service.send("emp", "PUT", TOKENS, json=TOKEN, headers={"X-Request-ID": value})
    assert response.status_code == 200 and response.headers["X-Request-ID"] == value


def kept_lines(service: Service) -> list[dict[str, object]]:
    """The lines of a store of `keep`."""
    words = [service.settings.program, "log", service.settings.store]
    out = subprocess.run(words, capture_output=True, check=True).stdout
    return [json.loads(each) for each in out.splitlines()]


def test_a_release_by_a_hub_keeps_its_id(make: Make, engine: str) -> None:
    service = make(hold_seconds=0)
    service.send("emp", "PUT", TOKENS, json=TOKEN)
    service.send("cpo", "POST", AUTHORIZE)
    ids = {"X-Request-ID": "r1"}
    first = service.send("hub", "POST", RELEASE, headers=ids)
    assert first.status_code == 200 and first.json()["answer"] == "Released"
    assert service.send("hub", "POST", RELEASE, headers=ids).content == first.content
    service.stop()
    service.start()
    assert service.send("hub", "POST", RELEASE, headers=ids).content == first.content
    assert service.send("hub", "POST", RELEASE, headers={"X-Request-ID": "r2"}).status_code == 404
    assert service.send("hub", "POST", RELEASE).status_code == 404
    service.send("cpo", "POST", AUTHORIZE)
    other = service.send("hub", "POST", RELEASE.replace("-1", "-2"), headers=ids)
    assert other.json()["refusal"] == "RequestIdUsed"
    if engine == "keep":
        released = [each for each in kept_lines(service) if each["do"] == "release"]
        assert released[0]["released_by"] == {"platform": "hub", "request_id": "r1"}
        assert released[0]["platform"] == "cpo" and released[0] == released[1] == released[2]


def test_a_release_of_many_comes_again(make: Make) -> None:
    service = make(hold_seconds=0)
    service.send("emp", "PUT", TOKENS, json=TOKEN)
    for _ in range(3):
        service.send("cpo", "POST", AUTHORIZE)
    ids = {"X-Request-ID": "all"}
    first = service.send("hub", "POST", "/clearing/holds/release", headers=ids)
    assert [row["answer"] for row in first.json()] == ["Released"] * 3
    assert service.send("hub", "POST", "/clearing/holds/release", headers=ids).content == first.content
    assert service.send("hub", "POST", "/clearing/holds/release").json() == []


@pytest.mark.parametrize("name", ["released_by", "released\\u005fby", "\\u0072eleased_by"])
def test_no_sender_says_that_a_hub_released(service: Service, name: str) -> None:
    body = (
        '{"platform":"cpo","do":"release","operator":"NL/CPA","provider":"NL/MSA","reference":"x","%s":{}}'
        % name
    )
    response = service.send("cpo", "POST", "/clearing/lines", content=body.encode())
    assert response.status_code == 403 and "released_by" in response.text
    assert service.health()["lines"] == 0


@pytest.mark.parametrize("text", ["=1+1", "+1+1", "-1+1", "@A1", "\tx", "\rx", "-", "+1"])
def test_a_cell_that_a_spreadsheet_would_run(text: str) -> None:
    assert safe_cell(text) == "'" + text


@pytest.mark.parametrize("text", ["-5.0000", "-1", "0", "NL/CPA", "", "1+1", "2024-07-01T10:00:00Z"])
def test_a_cell_that_stays(text: str) -> None:
    assert safe_cell(text) == text


def test_cells_of_a_sender(service: Service) -> None:
    service.lines("emp", line("put_token", token=TOKEN))
    service.lines("cpo", line("put_tariff", tariff=tariff()))
    made = [
        cdr("=cmd()", session_id="@A1\x00\u202e" + "x" * 100),
        cdr("S2", session_id="=1"),
        cdr("S3", session_id=7),
    ]
    assert [each["answer"] for each in service.lines("cpo", *[line("post", cdr=each) for each in made])] == [
        "Accepted"
    ] * 3
    service.lines("hub", line("close", period=0))
    response = service.get("cpo", "/clearing/statements/0/NL-CPA/cdrs.csv")
    rows = list(csv.DictReader(io.StringIO(response.text)))
    assert [(row["id"], row["session_id"]) for row in rows] == [
        ("'=cmd()", "'@A1??" + "x" * 31),
        ("S2", "'=1"),
        ("S3", "7"),
    ]
    assert response.headers["content-type"] == "text/csv; charset=utf-8"
    shown = service.get("cpo", "/clearing/cdrs?operator=NL/CPA&id=%3Dcmd()").json()
    assert shown["session"] == "@A1??" + "x" * 31


def test_links(make: Make) -> None:
    service = make(hosts="hub.example, localhost:1")
    for host, base in (
        ("hub.example", "http://hub.example"),
        ("localhost:1", "http://localhost:1"),
        ("evil.example", ""),
        ("127.0.0.1", ""),
    ):
        (version,) = service.get("cpo", "/ocpi/versions", headers={"Host": host}).json()["data"]
        assert version["url"] == f"{base}/ocpi/2.2.1"


@pytest.mark.parametrize("hours", ["-1", "25", "1e3", "x"])
def test_hours_out_of_bounds(service: Service, hours: str) -> None:
    response = service.get("hub", f"/clearing/refusals?hours={hours}")
    assert response.status_code == 400 and "hours" in response.text


@pytest.mark.parametrize("path", ["/clearing/settlements", "/clearing/close"])
def test_unknown_members(service: Service, path: str) -> None:
    body = {"provider": "NL/MSA", "currency": "EUR", "period": 0, "amount": "50.00"}
    response = service.send("hub", "POST", path, json=body)
    assert response.status_code == 400
    assert ("amount" if "settle" in path else "provider") in response.json()["error"]
    assert service.health()["lines"] == 0


def test_a_token_that_is_put_by_an_escape(service: Service) -> None:
    put = line("put_token", token=TOKEN).replace("put_token", "put\\u005ftoken")
    assert service.lines("emp", put)[0]["answer"] == "Stored"
    data = service.send("cpo", "POST", AUTHORIZE).json()["data"]
    assert data["allowed"] == "ALLOWED" and data["token"] == TOKEN


def test_the_currency_of_an_operator(make: Make, tmp_path: Path) -> None:
    limits = [{"currency": name, "limit": 1000000, "hold": 200000} for name in ("EUR", "SEK")]
    made = changed(CONFIGURATION, currencies=["EUR", "SEK"])
    made["providers"][0]["limits"] = limits
    (tmp_path / "config.json").write_text(json.dumps(made))
    service = make(folder=tmp_path)
    service.send("emp", "PUT", TOKENS, json=TOKEN)
    none = service.send("cpo", "POST", AUTHORIZE, headers=FROM)
    assert none.status_code == 400 and "EUR, SEK" in none.json()["status_message"]
    swedish = changed(tariff(), currency="SEK", id="G2")
    service.send("cpo", "PUT", TARIFFS.replace("G1", "G2"), json=swedish)
    assert service.send("cpo", "POST", AUTHORIZE, headers=FROM).json()["data"]["allowed"] == "ALLOWED"
    assert service.get("hub", "/clearing/holds").json()[0]["currency"] == "SEK"
    service.send("cpo", "PUT", TARIFFS, json=tariff())
    both = service.send("cpo", "POST", AUTHORIZE, headers=FROM)
    assert both.status_code == 400 and "EUR, SEK" in both.json()["status_message"]


def test_the_configuration_for_a_hub(service: Service) -> None:
    assert service.get("hub", "/clearing/configuration").json() == CONFIGURATION
    assert service.get("cpo", "/clearing/configuration").status_code == 403


def test_members_see_their_counterparts(service: Service) -> None:
    service.lines("emp", line("put_token", token=TOKEN))
    service.lines("cpo", line("put_tariff", tariff=tariff()))
    seen = service.get("cpo", "/clearing/sender").json()
    assert (seen["operators"], seen["providers"]) == (["NL/CPA"], [])
    assert service.send("cpo", "POST", CDRS, json=cdr()).status_code == 201
    for platform, operators, providers in (
        ("cpo", ["NL/CPA"], ["NL/MSA"]),
        ("emp", ["NL/CPA"], ["NL/MSA"]),
        ("cpb", ["NL/CPB"], []),
        ("hub", ["NL/CPA", "NL/CPB"], ["NL/MSA"]),
    ):
        seen = service.get(platform, "/clearing/sender").json()
        assert (seen["operators"], seen["providers"]) == (operators, providers), platform
