"""OCPI 2.2.1: each endpoint, the envelope, ids, retries."""

from __future__ import annotations

import base64
import json
from urllib.parse import quote

import httpx
import pytest

from conftest import Make, MakeStore, Service
from examples import AUTHORIZE, CDRS, FROM, TARIFF, TARIFFS, TOKEN, TOKENS, cdr, changed, credit, tariff


def is_success(response: httpx.Response, status: int = 200) -> bool:
    members = response.json()
    assert response.status_code == status, response.text
    assert set(members) == {"data", "status_code", "status_message", "timestamp"}
    return bool(members["status_code"] == 1000) and members["status_message"] == "Success"


def prepare(service: Service) -> None:
    assert is_success(service.send("emp", "PUT", TOKENS, json=TOKEN))
    assert is_success(service.send("cpo", "PUT", TARIFFS, json=TARIFF))


def test_versions(service: Service) -> None:
    response = service.get("cpo", "/ocpi/versions")
    assert is_success(response)
    (version,) = response.json()["data"]
    assert version["version"] == "2.2.1"
    details = service.get("cpo", version["url"].removeprefix(service.url))
    assert is_success(details)
    endpoints = details.json()["data"]["endpoints"]
    assert {(row["identifier"], row["role"]) for row in endpoints} == {
        ("credentials", "SENDER"),
        ("hubclientinfo", "SENDER"),
        *((module, role) for module in ("tariffs", "tokens", "cdrs") for role in ("SENDER", "RECEIVER")),
    }
    assert all(row["url"].startswith(service.url + "/ocpi/2.2.1/") for row in endpoints)


def test_public_url(make: Make) -> None:
    service = make(url="https://hub.example/roaming/")
    (version,) = service.get("cpo", "/ocpi/versions").json()["data"]
    assert version["url"] == "https://hub.example/roaming/ocpi/2.2.1"


def test_ids_are_echoed(service: Service) -> None:
    ids = {"X-Request-ID": "r-1", "X-Correlation-ID": "c-1"}
    for platform, path in (("cpo", "/ocpi/versions"), (None, "/ocpi/versions"), ("cpo", "/ocpi/none")):
        response = service.get(platform, path, headers=ids)
        assert response.headers["X-Request-ID"] == "r-1"
        assert response.headers["X-Correlation-ID"] == "c-1"
    assert "X-Request-ID" not in service.get("cpo", "/ocpi/versions").headers


def test_a_session(service: Service) -> None:
    prepare(service)
    response = service.send("cpo", "POST", AUTHORIZE, headers=FROM, json={"location_id": "L1"})
    assert is_success(response)
    info = response.json()["data"]
    assert info == {"allowed": "ALLOWED", "authorization_reference": "NLMSA-1", "token": TOKEN}
    posted = cdr(authorization_reference="NLMSA-1")
    response = service.send("cpo", "POST", CDRS, json=posted)
    assert is_success(response, 201)
    location = response.headers["Location"]
    assert location == f"{service.url}{CDRS}/S1?operator=NL%2FCPA"
    found = service.get("cpo", location.removeprefix(service.url))
    assert is_success(found)
    assert found.json()["data"] == posted
    assert service.get("cpo", f"{CDRS}/s1").json()["data"] == posted
    assert service.get("hub", "/clearing/holds").json() == []


def test_answers_of_authorize(service: Service) -> None:
    assert service.send("cpo", "POST", AUTHORIZE).status_code == 404
    service.send("emp", "PUT", TOKENS, json=changed(TOKEN, valid=False))
    blocked = service.send("cpo", "POST", AUTHORIZE)
    assert is_success(blocked)
    assert blocked.json()["data"]["allowed"] == "BLOCKED"
    assert blocked.json()["data"]["token"]["valid"] is False
    service.send("emp", "PUT", TOKENS, json=TOKEN)
    allowed = [service.send("cpo", "POST", AUTHORIZE).json()["data"]["allowed"] for _ in range(6)]
    assert allowed == ["ALLOWED"] * 5 + ["NO_CREDIT"]


def test_authorize_of_another_type(service: Service) -> None:
    app_user = changed(TOKEN, type="APP_USER")
    assert is_success(service.send("emp", "PUT", TOKENS + "?type=APP_USER", json=app_user))
    assert service.send("cpo", "POST", AUTHORIZE).json()["status_code"] == 2004
    response = service.send("cpo", "POST", AUTHORIZE + "?type=APP_USER&currency=EUR")
    assert response.json()["data"]["token"] == app_user


def test_a_retry_gets_the_same_answer(service: Service) -> None:
    prepare(service)
    ids = {"X-Request-ID": "7f0c"}
    answers = [service.send("cpo", "POST", AUTHORIZE, headers=ids).json()["data"] for _ in range(3)]
    assert answers[0]["authorization_reference"] == "NLMSA-1"
    assert answers == answers[:1] * 3
    assert len(service.get("hub", "/clearing/holds").json()) == 1
    posts = [service.send("cpo", "POST", CDRS, headers={"X-Request-ID": "p"}, json=cdr()) for _ in range(2)]
    assert [response.status_code for response in posts] == [201, 201]
    assert service.send("cpo", "POST", CDRS, json=cdr()).status_code == 200
    other = service.send("cpo", "POST", CDRS, headers={"X-Request-ID": "p"}, json=cdr("S2"))
    assert other.json()["status_message"] == "RequestIdUsed"
    assert is_success(service.send("both", "POST", CDRS, headers={"X-Request-ID": "p"}, json=cdr("S2")), 201)


def test_a_retry_after_a_restart(make: Make, make_store: MakeStore) -> None:
    store = make_store()
    service = make(store)
    prepare(service)
    first = service.send("cpo", "POST", AUTHORIZE, headers={"X-Request-ID": "a"}).json()["data"]
    service.stop()
    again = make(store)
    assert again.send("cpo", "POST", AUTHORIZE, headers={"X-Request-ID": "a"}).json()["data"] == first
    assert len(again.get("hub", "/clearing/holds").json()) == 1


def test_the_token_in_base64(service: Service) -> None:
    token = base64.b64encode(service.tokens["cpo"].encode()).decode()
    assert service.get(None, "/ocpi/versions", headers={"Authorization": f"Token {token}"}).status_code == 200


def test_several_operators_with_an_id(service: Service) -> None:
    prepare(service)
    service.send("cpb", "PUT", "/ocpi/2.2.1/tariffs/NL/CPB/G1", json=tariff("CPB"))
    for party, platform in (("CPA", "cpo"), ("CPB", "cpb")):
        assert is_success(service.send(platform, "POST", CDRS, json=cdr(party=party)), 201)
    assert service.get("both", f"{CDRS}/S1").status_code == 400
    for party in ("CPA", "CPB"):
        found = service.get("both", f"{CDRS}/S1?operator=NL/{party}").json()["data"]
        assert found["party_id"] == party
    assert service.get("cpo", f"{CDRS}/S1?operator=NL/CPB").status_code == 404
    assert service.get("hub", f"{CDRS}/S1").status_code == 404


def test_the_path_has_to_name_the_object(service: Service) -> None:
    other = [
        ("emp", "/ocpi/2.2.1/tokens/NL/MSA/U2", TOKEN),
        ("emp", "/ocpi/2.2.1/tokens/NL/MSB/U1", TOKEN),
        ("emp", TOKENS + "?type=APP_USER", TOKEN),
        ("cpo", "/ocpi/2.2.1/tariffs/NL/CPA/G2", TARIFF),
        ("cpo", "/ocpi/2.2.1/tariffs/BE/CPA/G1", TARIFF),
    ]
    for platform, path, body in other:
        response = service.send(platform, "PUT", path, json=body)
        assert (response.status_code, response.json()["status_code"]) == (400, 2001), path
    assert is_success(service.send("emp", "PUT", "/ocpi/2.2.1/tokens/nl/msa/u1", json=TOKEN))


def test_a_credit_cdr(service: Service) -> None:
    prepare(service)
    assert is_success(service.send("cpo", "POST", CDRS, json=cdr()), 201)
    response = service.send("cpo", "POST", CDRS, json=credit("S1-C", "S1"))
    assert is_success(response, 201)
    assert service.get("cpo", f"{CDRS}/S1-C").json()["data"]["credit"] is True


def test_numbers_come_back_as_they_were_sent(service: Service) -> None:
    prepare(service)
    text = json.dumps(cdr()).replace('"total_time": 1,', '"total_time": 1.000,').replace("0.25", "0.2500")
    assert is_success(service.send("cpo", "POST", CDRS, content=text.encode()), 201)
    found = service.get("cpo", f"{CDRS}/S1")
    assert '"total_time": 1.000,' in found.text and "0.2500" in found.text


def test_ids_with_other_characters(service: Service) -> None:
    prepare(service)
    name = "a/b ?#%&+;'\"\\x"
    quoted = quote(name, safe="")
    response = service.send(
        "cpo", "PUT", f"/ocpi/2.2.1/tariffs/NL/CPA/{quoted}", json=changed(TARIFF, id=name)
    )
    assert is_success(response)
    response = service.send(
        "emp", "PUT", f"/ocpi/2.2.1/tokens/NL/MSA/{quoted}", json=changed(TOKEN, uid=name)
    )
    assert is_success(response)
    response = service.send("cpo", "POST", f"/ocpi/2.2.1/tokens/{quoted}/authorize")
    assert response.json()["data"]["token"]["uid"] == name
    response = service.send("cpo", "POST", CDRS, json=cdr(name))
    found = service.get("cpo", response.headers["Location"].removeprefix(service.url))
    assert found.json()["data"]["id"] == name


@pytest.mark.parametrize("indent", [None, 2])
def test_a_body_over_several_lines(service: Service, indent: int | None) -> None:
    assert is_success(
        service.send("emp", "PUT", TOKENS, content=json.dumps(TOKEN, indent=indent).encode() + b"\n")
    )
