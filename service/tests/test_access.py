"""Senders, limits, and clients that misbehave."""

from __future__ import annotations

import json
import os
import resource
import signal
import socket
import threading
import time

import pytest
from clear_service import senders

from conftest import Make, Service, wait_until
from examples import AUTHORIZE, CDRS, TARIFF, TARIFFS, TOKEN, TOKENS, line

OPEN = ("/health", "/ready", "/openapi.json")
CLOSED = (
    "/ocpi/versions",
    "/ocpi/2.2.1",
    CDRS + "/S1",
    "/clearing/balances",
    "/clearing/holds",
    "/metrics",
    "/none",
)


def talk(service: Service, sent: bytes, seconds: float = 20.0) -> bytes:
    """Sends bytes on a connection; returns what the service answers until it closes, or until so long has passed."""
    with socket.create_connection(("127.0.0.1", service.settings.port), timeout=seconds) as connection:
        connection.sendall(sent)
        got = b""
        try:
            while part := connection.recv(65536):
                got += part
        except TimeoutError:
            pass
        return got


def request(service: Service, platform: str, head: str, body: bytes = b"") -> bytes:
    return f"{head}\r\nHost: x\r\nAuthorization: Token {service.tokens[platform]}\r\n".encode() + body


def test_tokens(service: Service) -> None:
    for path in CLOSED:
        for header in (
            None,
            "",
            "Token",
            "Token x",
            "Bearer " + service.tokens["cpo"],
            service.tokens["cpo"],
        ):
            response = service.get(None, path, headers={} if header is None else {"Authorization": header})
            assert response.status_code == 401
            assert response.headers["WWW-Authenticate"] == "Token"
    for path in OPEN:
        assert service.get(None, path).status_code == 200


def test_a_token_speaks_for_its_platform_alone(service: Service) -> None:
    assert service.send("cpo", "PUT", TOKENS, json=TOKEN).status_code == 404
    assert service.send("emp", "PUT", TARIFFS, json=TARIFF).status_code == 404
    assert service.send("cpo", "POST", "/clearing/close", json={"period": 0}).status_code == 403
    inside = {**TOKEN, "platform": "emp", "do": "close"}
    assert service.send("cpo", "PUT", TOKENS, json=inside).status_code == 404
    assert service.health()["events"] == 0


def test_a_token_is_added_and_removed_while_the_service_runs(service: Service) -> None:
    from clear_service.senders import TokenFile

    file = TokenFile(service.settings.tokens)
    service.tokens["new"] = file.add("cpo")
    time.sleep(1.1)
    assert service.get("new", "/ocpi/versions").status_code == 200
    assert file.remove("cpo") == 2
    time.sleep(1.1)
    assert service.get("new", "/ocpi/versions").status_code == 401
    assert service.get("emp", "/ocpi/versions").status_code == 200


def test_the_file_of_tokens_has_no_token(service: Service) -> None:
    from pathlib import Path

    text = Path(service.settings.tokens).read_text()
    assert not any(token in text for token in service.tokens.values())
    assert Path(service.settings.tokens).stat().st_mode & 0o077 == 0


def test_requests_a_second(make: Make, monkeypatch: pytest.MonkeyPatch) -> None:
    service = make(requests_a_second=5)
    clock = [100.0]
    monkeypatch.setattr(senders, "monotonic", lambda: clock[0])
    statuses = [service.get("cpo", "/ocpi/versions").status_code for _ in range(7)]
    assert statuses == [200] * 5 + [429] * 2
    assert service.get("cpo", "/ocpi/versions").headers["Retry-After"] == "1"
    assert service.get("emp", "/ocpi/versions").status_code == 200
    clock[0] += 0.4
    assert [service.get("cpo", "/ocpi/versions").status_code for _ in range(3)] == [200, 200, 429]
    clock[0] += 100
    statuses = [service.get("cpo", "/ocpi/versions").status_code for _ in range(6)]
    assert statuses == [200] * 5 + [429]


def test_bodies_of_2_mb(service: Service) -> None:
    big = json.dumps({**TOKEN, "x": "x" * 2_000_000}).encode()
    assert service.send("emp", "PUT", TOKENS, content=big).status_code == 413
    assert service.send("emp", "PUT", TOKENS, content=iter([big[:9], big[9:]])).status_code == 413
    bulk = (line("exposure", provider="NL/MSA", currency="EUR", x="x" * 1000) + "\n") * 2000
    assert len(bulk) > 2_000_000
    response = service.send("emp", "POST", "/clearing/lines", content=bulk.encode())
    assert response.status_code == 200 and response.content.count(b'"Exposure"') == 2000
    assert service.health()["lines"] == 2000


def test_lines_that_are_too_long(service: Service) -> None:
    just = json.dumps({**TOKEN, "x": ""})
    room = 1_048_576 - len('{"platform":"emp","do":"put_token","token":}') - len(just)
    for more, status in ((0, 200), (1, 413)):
        body = json.dumps({**TOKEN, "x": "x" * (room + more)}).encode()
        assert service.send("emp", "PUT", TOKENS, content=body).status_code == status
        bulk = b'{"platform":"emp","do":"put_token","token":' + body + b"}\n"
        assert service.send("emp", "POST", "/clearing/lines", content=bulk).status_code == status
    assert service.health()["starts"] == 1


def test_too_many_lines_and_bytes(make: Make) -> None:
    service = make(bulk_lines=3, bulk_bytes=1000)
    for count, status in ((3, 200), (4, 413)):
        assert (
            service.send("emp", "POST", "/clearing/lines", content=b'{"do":"x"}\n' * count).status_code
            == status
        )
    assert service.send("emp", "POST", "/clearing/lines", content=b" " * 1001).status_code == 413


MALFORMED = [
    b"\x16\x03\x01\x02\x00\x01\x00\x01\xfc\x03\x03",
    b"GET\r\n\r\n",
    b"GET /health HTTP/1.1\r\nbroken header\r\n\r\n",
    b"POST /clearing/lines HTTP/1.1\r\nHost: x\r\nContent-Length: many\r\n\r\n",
    b"POST /clearing/lines HTTP/1.1\r\nHost: x\r\nContent-Length: -1\r\n\r\n",
    b"POST /clearing/lines HTTP/1.1\r\nHost: x\r\nTransfer-Encoding: chunked\r\n\r\nzz\r\n",
]


@pytest.mark.parametrize("sent", MALFORMED)
def test_malformed_http(service: Service, sent: bytes) -> None:
    got = talk(service, sent, 2.0)
    assert got == b"" or got.split(b" ")[1][:1] in (b"4", b"5"), got
    assert service.get("cpo", "/ocpi/versions").status_code == 200
    assert service.health()["lines"] == 0


def test_a_slow_client(make: Make) -> None:
    service = make(body_seconds=5)
    slow = request(service, "emp", f"PUT {TOKENS} HTTP/1.1", b'Content-Length: 1000\r\n\r\n{"country')
    began = time.monotonic()
    threads = [threading.Thread(target=talk, args=(service, slow, 30.0)) for _ in range(20)]
    for thread in threads:
        thread.start()
    assert service.send("emp", "PUT", TOKENS, json=TOKEN).status_code == 200
    got = talk(service, slow)
    for thread in threads:
        thread.join()
    assert got.startswith(b"HTTP/1.1 408 ") and time.monotonic() - began >= 5
    assert service.health()["lines"] == 1


def test_a_client_that_closes(service: Service) -> None:
    begun = request(service, "emp", f"PUT {TOKENS} HTTP/1.1", b'Content-Length: 1000\r\n\r\n{"country')
    body = json.dumps(TOKEN).encode()
    whole = request(
        service, "emp", f"PUT {TOKENS} HTTP/1.1", b"Content-Length: %d\r\n\r\n%b" % (len(body), body)
    )
    for sent in [begun, whole] * 5:
        with socket.create_connection(("127.0.0.1", service.settings.port)) as connection:
            connection.sendall(sent)
    assert service.send("emp", "PUT", TOKENS, json=TOKEN).status_code == 200
    assert service.send("cpo", "POST", AUTHORIZE).json()["data"]["allowed"] == "ALLOWED"
    assert service.health()["waiting"] == 0


def test_many_connections(service: Service) -> None:
    _, hard = resource.getrlimit(resource.RLIMIT_NOFILE)
    resource.setrlimit(resource.RLIMIT_NOFILE, (hard, hard))
    connections = [socket.create_connection(("127.0.0.1", service.settings.port)) for _ in range(1000)]
    asked = request(service, "cpo", "GET /ocpi/versions HTTP/1.1", b"\r\n")
    for connection in connections:
        connection.sendall(asked)
    for connection in connections:
        assert connection.recv(15) == b"HTTP/1.1 200 OK"
        connection.close()
    assert service.send("emp", "PUT", TOKENS, json=TOKEN).status_code == 200


def test_paths_and_methods(service: Service) -> None:
    for method, path, status in (("GET", "/none", 404), ("DELETE", CDRS, 405), ("GET", "/ocpi/none", 404)):
        response = service.send("cpo", method, path)
        assert response.status_code == status
        assert response.json().get("status_code", 2000) == 2000
    assert set(service.get("cpo", "/none").json()) == {"error"}
    assert set(service.get("cpo", "/ocpi/none").json()) == {"status_code", "status_message", "timestamp"}


def answering(service: Service) -> int:
    """The process without which there are no answers: the program, or the worker that runs it."""
    assert wait_until(lambda: {"pid", "worker"} & service.health()["details"].keys())
    details = service.health()["details"]
    return int(details.get("pid") or details["worker"])


def test_a_full_queue(make: Make) -> None:
    service = make(queue_lines=10)
    exposure = line("exposure", provider="NL/MSA", currency="EUR").encode()
    assert service.send("emp", "POST", "/clearing/lines", content=exposure).status_code == 200
    process = answering(service)
    os.kill(process, signal.SIGSTOP)
    statuses: list[int] = []

    def send() -> None:
        statuses.append(service.send("emp", "POST", "/clearing/lines", content=exposure).status_code)

    threads = [threading.Thread(target=send) for _ in range(10)]
    for thread in threads:
        thread.start()
    assert wait_until(lambda: service.health()["waiting"] == 10)
    response = service.send("emp", "POST", "/clearing/lines", content=exposure)
    assert (response.status_code, response.headers["Retry-After"]) == (503, "1")
    ocpi = service.send("emp", "PUT", TOKENS, json=TOKEN)
    assert (ocpi.status_code, ocpi.json()["status_code"], ocpi.headers["Retry-After"]) == (503, 3000, "1")
    assert service.health()["waiting"] == 10
    os.kill(process, signal.SIGCONT)
    for thread in threads:
        thread.join()
    assert statuses == [200] * 10
    assert service.health()["lines"] == 11 and service.health()["waiting"] == 0


def test_a_body_of_more_lines_than_the_queue(make: Make) -> None:
    service = make(queue_lines=10)
    assert service.send("emp", "POST", "/clearing/lines", content=b'{"do":"x"}\n' * 11).status_code == 413
    assert service.health()["lines"] == 0


def test_an_answer_that_does_not_come(make: Make) -> None:
    service = make(answer_seconds=2)
    assert service.send("cpo", "PUT", TARIFFS, json=TARIFF).status_code == 200
    process = answering(service)
    os.kill(process, signal.SIGSTOP)
    response = service.send("emp", "PUT", TOKENS, json=TOKEN, headers={"X-Request-ID": "a"})
    assert (response.status_code, response.headers["Retry-After"]) == (503, "1")
    os.kill(process, signal.SIGCONT)
    assert wait_until(lambda: service.health()["waiting"] == 0)
    ids = {"X-Request-ID": "a"}
    assert wait_until(lambda: service.send("emp", "PUT", TOKENS, json=TOKEN, headers=ids).status_code == 200)
    assert service.health()["events"] == 2
