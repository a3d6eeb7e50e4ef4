"""/openapi.json names each endpoint, and each operation answers as it says."""

from __future__ import annotations

import httpx
import jsonschema
import pytest

from conftest import Make, Service
from examples import CONFIGURATION, TARIFF, TOKEN, Object, cdr

VALUES = {
    "country_code": "NL",
    "cdr_id": "S1",
    "period": "0",
    "party": "NL-CPA",
    "reference": "NLMSA-1",
    "platform": "cpo",
    "kept": "0",
}
BODIES: dict[str, tuple[str, Object | None, dict[str, str]]] = {
    "/ocpi/2.2.1/tariffs/{country_code}/{party_id}/{tariff_id}": (
        "cpo",
        TARIFF,
        {"party_id": "CPA", "tariff_id": "G1"},
    ),
    "/ocpi/2.2.1/tokens/{country_code}/{party_id}/{token_uid}": (
        "emp",
        TOKEN,
        {"party_id": "MSA", "token_uid": "U1"},
    ),
    "/ocpi/2.2.1/tokens/{token_uid}/authorize": ("cpo", {}, {"token_uid": "U1"}),
    "/ocpi/2.2.1/cdrs": ("cpo", cdr(), {}),
    "/clearing/lines": ("cpo", {"do": "find", "operator": "NL/CPA", "id": "S1"}, {}),
    "/clearing/close": ("hub", {"period": 0}, {}),
    "/clearing/settlements": ("hub", {"provider": "NL/MSA", "currency": "EUR", "period": 0}, {}),
    "/ocpi/2.2.1/credentials": ("cpo", {"token": "x", "url": "https://localhost", "roles": []}, {}),
    "/clearing/holds/{reference}/release": ("hub", {}, {}),
    "/clearing/holds/release": ("hub", {}, {}),
}
METHODS = ["put", "post", "get", "patch", "delete"]
PATCHES = {"last_updated": "2024-07-02T00:00:00Z", "issuer": "Meier"}
# What is not there for a platform that has not registered.
UNREGISTERED = {
    ("/ocpi/2.2.1/credentials", "post"): 405,
    ("/ocpi/2.2.1/credentials", "put"): 405,
    ("/ocpi/2.2.1/credentials", "delete"): 405,
    ("/clearing/peers/{platform}", "delete"): 404,
    ("/clearing/peers/{platform}/refused", "post"): 404,
}
RECEIPTS = ("/clearing/receipt", "/clearing/receipt/{kept}")
QUERIES = {"/clearing/cdrs": {"operator": "NL/CPA", "id": "S1"}}
SENDERS = {"/ocpi/2.2.1/cdrs/{cdr_id}": "cpo", "/metrics": "metrics"}


def operations(service: Service) -> list[tuple[str, str, Object]]:
    paths = service.get(None, "/openapi.json").json()["paths"]
    order = list(BODIES)
    found = [(path, method, each) for path, item in paths.items() for method, each in item.items()]
    return sorted(
        found, key=lambda it: (order.index(it[0]) if it[0] in order else len(order), METHODS.index(it[1]))
    )


def is_described(response: httpx.Response, operation: Object) -> None:
    said = operation["responses"][str(response.status_code)]["content"]
    kind = response.headers["content-type"].partition(";")[0]
    found = {name.partition(";")[0]: content for name, content in said.items()}
    assert kind in found, (kind, found)
    if kind == "application/json":
        jsonschema.validate(response.json(), found[kind].get("schema") or {})


def test_each_operation_answers_as_it_says(make: Make, engine: str) -> None:
    service = make(hold_seconds=0)
    seen = []
    for path, method, operation in operations(service):
        platform, body, values = BODIES.get(path, (SENDERS.get(path, "hub"), None, {}))
        body = PATCHES if method == "patch" else body
        url = path.format(**{**VALUES, **values})
        response = service.send(platform, method.upper(), url, json=body, params=QUERIES.get(path))
        wanted = UNREGISTERED.get((path, method))
        if path in RECEIPTS and engine == "postgresql":
            wanted = 501
        assert response.status_code == wanted or 200 <= response.status_code < 300, (path, response.text)
        is_described(response, operation)
        seen.append(path)
    assert set(BODIES) <= set(seen) and len(seen) >= 25


def test_each_operation_without_token_and_with_a_wrong_one(service: Service) -> None:
    for path, method, operation in operations(service):
        platform, body, values = BODIES.get(path, ("hub", None, {}))
        url = path.format(**{**VALUES, **values})
        if "401" in operation["responses"]:
            is_described(
                service.send(None, method.upper(), url, json=body, params=QUERIES.get(path)), operation
            )
            is_described(
                service.send("cpb", method.upper(), url, json=body, params=QUERIES.get(path)), operation
            )
        else:
            assert path in ("/health", "/ready")


@pytest.mark.parametrize("body", [b"", b"[]", b"{", b"{}", b'{"period":{}}'])
def test_each_operation_with_a_malformed_body(service: Service, body: bytes) -> None:
    for path, method, operation in operations(service):
        if "requestBody" in operation:
            platform, _, values = BODIES[path]
            url = path.format(**{**VALUES, **values})
            response = service.send(platform, method.upper(), url, content=body)
            is_described(response, operation)


def test_metrics(service: Service) -> None:
    service.send("emp", "PUT", "/ocpi/2.2.1/tokens/NL/MSA/U1", json=TOKEN)
    text = service.get("metrics", "/metrics").text
    assert 'clear_answers_total{name="Stored"} 1.0' in text
    assert 'clear_requests_total{area="PUT ocpi",platform="emp",status="200"} 1.0' in text
    assert "clear_events 1.0" in text and "clear_queue_lines 0.0" in text and "clear_engine_ready 1.0" in text


def test_health(service: Service, engine: str) -> None:
    health = service.health()
    assert (
        health["status"] == "up"
        and health["engine"] == engine
        and health["starts"] == 1
        and not health["torn"]
    )
    assert CONFIGURATION["version"] == 2
