"""Operation: figures, the log, health and readiness, a graceful stop, backup and restore."""

from __future__ import annotations

import json
import os
import random
import signal
import socket
import subprocess
import threading
import time
from collections.abc import Callable
from pathlib import Path

import httpx
import pytest
from prometheus_client.parser import text_string_to_metric_families

from conftest import Make, Service, free_port, wait_until
from examples import CONFIGURATION, TOKEN, cdr, changed, credit, line, tariff
from started import PROGRAM, Start, Started, start

__all__ = ["start"]
EXPOSURE = line("exposure", provider="NL/MSA", currency="EUR")


def figures(service: Service, name: str) -> dict[tuple[str, ...], float]:
    """The samples of a figure by the values of their labels, in the order of the labels' names."""
    text = service.get("metrics", "/metrics").text
    found = {}
    for family in text_string_to_metric_families(text):  # type: ignore[no-untyped-call]
        for sample in family.samples:
            if sample.name == name:
                found[tuple(value for _, value in sorted(sample.labels.items()))] = sample.value
    return found


def exposures(service: Service) -> dict[str, dict[tuple[str, ...], float]]:
    names = ("holds", "debts", "limit")
    return {name: figures(service, f"clear_exposure_{name}") for name in names}


def same_exposures(service: Service) -> None:
    """The figures are those that the house answers."""
    found = exposures(service)
    for row in service.get("hub", "/clearing/exposure").json():
        key = (row["currency"], row["provider"])
        for name, values in found.items():
            assert values.get(key, 0.0) == float(row[name]), (key, name)


def test_exposure_is_that_of_the_house(make: Make) -> None:
    service = make()
    chosen = random.Random(7)
    service.lines("emp", line("put_token", token=TOKEN))
    service.lines("cpo", line("put_tariff", tariff=tariff()))
    ask = line("authorize", operator="NL/CPA", provider="NL/MSA", uid="U1", currency="EUR")
    posted: list[tuple[str, float]] = []
    period = 0
    for number in range(40):
        match chosen.choice("ask post post use credit close settle release".split()):
            case "ask":
                service.lines("cpo", ask)
            case "post":
                kwh = chosen.choice([1, 2.5, 10])
                made = cdr(f"P{number}", kwh, kwh / 4)
                if service.lines("cpo", line("post", cdr=made))[0].get("answer") == "Accepted":
                    posted.append((made["id"], kwh))
            case "use":
                (answer,) = service.lines("cpo", ask)
                reference = answer.get("authorization_reference", "NLMSA-1").lower()
                made = cdr(f"P{number}", 4, 1.0, authorization_reference=reference)
                service.lines("cpo", line("post", cdr=made))
            case "credit" if posted:
                original, kwh = posted.pop(chosen.randrange(len(posted)))
                back = credit(f"{original}-C", original, -kwh / 4)
                service.lines("cpo", line("post", cdr=back), line("post", cdr=back))
            case "close":
                service.lines("hub", line("close", period=period))
                period += 1
            case "settle" if period:
                of = chosen.randrange(period)
                service.lines("hub", *[line("settle", provider="nl/msa", currency="EUR", period=of)] * 2)
            case "release":
                holds = service.get("hub", "/clearing/holds").json()
                for hold in holds[:1]:
                    members = {"operator": "NL/CPA", "provider": "NL/MSA", "reference": hold["reference"]}
                    service.lines("cpo", line("release", **members))
        same_exposures(service)
    lower = changed(CONFIGURATION)
    lower["providers"][0]["limits"][0]["limit"] = 5
    service.lines("hub", line("configure", configuration=lower))
    same_exposures(service)
    before = exposures(service)
    assert before["limit"] == {("EUR", "NL/MSA"): 0.0005}
    service.stop()
    service.start()
    assert exposures(service) == before


def test_a_credit_of_a_settled_cdr_ends_no_debt(make: Make, tmp_path: Path) -> None:
    (tmp_path / "config.json").write_text(json.dumps(changed(CONFIGURATION, credit_window=2)))
    service = make(folder=tmp_path)
    service.lines("emp", line("put_token", token=TOKEN))
    service.lines("cpo", line("put_tariff", tariff=tariff()))
    settle = line("settle", provider="NL/MSA", currency="EUR", period=0)
    answers = [
        *service.lines("cpo", line("post", cdr=cdr("S1"))),
        *service.lines("hub", line("close", period=0), settle),
        *service.lines("cpo", line("post", cdr=cdr("S2")), line("post", cdr=credit("C1", "S1"))),
    ]
    assert [answer["answer"] for answer in answers] == [
        "Accepted",
        "Closed",
        "Settled",
        "Accepted",
        "Accepted",
    ]
    assert exposures(service)["debts"] == {("EUR", "NL/MSA"): 5.0}
    same_exposures(service)


def test_answers_by_command_and_name(make: Make) -> None:
    service = make()
    service.lines("emp", line("put_token", token=TOKEN), EXPOSURE, EXPOSURE, "{}", '{"do":"dance"}')
    service.lines("cpo", line("put_tariff", tariff=tariff()), line("post", cdr={}), line("close", period=0))
    assert figures(service, "clear_command_answers_total") == {
        ("exposure", "Exposure"): 2,
        ("put_token", "Stored"): 1,
        ("put_tariff", "Stored"): 1,
        ("post", "Field"): 1,
        ("close", "NotYours"): 1,
        ("other", "Field"): 2,
    }
    assert figures(service, "clear_queue_lines") == {(): 0.0}
    assert figures(service, "clear_events") == {(): 2.0}
    assert figures(service, "clear_request_seconds_count")[("clearing",)] == 2


def output(*words: str) -> bytes:
    """What the program prints."""
    return subprocess.run([PROGRAM, *words], capture_output=True, check=True).stdout


def test_a_line_of_the_log_for_each_request(start: Start, tmp_path: Path) -> None:
    service = start("one", tmp_path / "house")
    assert service.is_ready()
    secret = "a-token-that-nobody-has"
    headers = {"X-Request-ID": "r1", "Authorization": f"Token {service.tokens['emp']}"}
    service.client.get("/clearing/exposure?token=" + secret, headers=headers)
    service.client.get("/clearing/exposure", headers={"Authorization": f"Token {secret}"})
    service.client.get("/nowhere%0a", headers=headers)
    assert service.stop() in (0, -signal.SIGTERM)
    lines = [json.loads(text) for text in service.said().splitlines() if text.startswith("{")]
    shown = [(row["platform"], row["method"], row["path"], row["status"], row["request_id"]) for row in lines]
    assert ("emp", "GET", "/clearing/exposure", 200, "r1") in shown
    assert (None, "GET", "/clearing/exposure", 401, None) in shown
    assert ("emp", "GET", "/nowhere\n", 404, "r1") in shown
    for row in lines:
        assert row["ms"] >= 0 and time.strptime(row["time"], "%Y-%m-%dT%H:%M:%SZ")
    for token in (*service.tokens.values(), secret):
        assert token not in service.said()


def test_health_and_readiness(start: Start, tmp_path: Path) -> None:
    """A service whose program fails is alive and not ready; it is ready when the program can be started."""
    program = tmp_path / "clear"
    program.write_text(
        "#!/bin/sh\n[ $1 = check_config ] && exit 0\necho 'clear: broken on purpose' >&2\nexit 1\n"
    )
    program.chmod(0o755)
    service = start("one", tmp_path / "house", str(program))
    assert wait_until(lambda: service.status("/health") == 200)
    assert wait_until(lambda: "broken on purpose" in (service.client.get("/health").json()["last_end"] or ""))
    assert service.status("/ready") == 503
    refused = service.send("emp", EXPOSURE)
    assert refused.status_code == 503 and int(refused.headers["retry-after"]) >= 1

    (tmp_path / "working").write_text(f"#!/bin/sh\nexec '{PROGRAM}' \"$@\"\n")
    (tmp_path / "working").chmod(0o755)
    os.replace(tmp_path / "working", program)
    assert service.is_ready()
    assert service.client.get("/health").json()["starts"] == 1
    assert service.send("emp", EXPOSURE).status_code == 200
    os.kill(service.house(), signal.SIGKILL)
    assert wait_until(lambda: service.client.get("/health").json()["starts"] == 2)
    assert service.is_ready()
    health = service.client.get("/health").json()
    assert health["status"] == "up" and "-9" in health["last_end"]


def test_a_graceful_stop(start: Start, tmp_path: Path) -> None:
    """At SIGTERM, each request that was taken is answered or told 503; each answered line is in the store."""
    store = tmp_path / "house"
    service = start("one", store)
    assert service.is_ready()
    assert service.send("emp", line("put_token", token=TOKEN)).status_code == 200
    child = service.house()
    answered: list[int] = []
    others: list[int] = []

    def run() -> None:
        with httpx.Client(base_url=service.client.base_url, timeout=60) as client:
            for _ in range(10_000):
                try:
                    response = service.send("emp", *[EXPOSURE] * 40, client=client)
                except httpx.HTTPError:
                    return
                if response.status_code != 200:
                    others.append(response.status_code)
                    return
                answered.append(len(response.content.splitlines()))

    threads = [threading.Thread(target=run) for _ in range(6)]
    for thread in threads:
        thread.start()
    assert wait_until(lambda: len(answered) > 20)
    assert service.stop() in (0, -signal.SIGTERM)
    for thread in threads:
        thread.join(180)
    assert set(answered) == {40} and set(others) <= {503}
    with pytest.raises(ProcessLookupError):
        os.kill(child, 0)
    checked = json.loads(output("check", str(store)))
    assert checked["torn"] is False and checked["kept"] >= 1 + sum(answered)
    assert "Traceback" not in service.said()


def reads(service: Started) -> list[object]:
    """What a hub reads."""
    paths = ("periods", "balances", "exposure", "statements/0/NL-CPA", "cdrs?operator=NL/CPA&id=S1")
    found: list[object] = []
    for path in paths:
        response = service.get("hub", f"/clearing/{path}")
        assert response.status_code == 200, response.text
        found.append(response.json())
    return found


@pytest.mark.long
def test_backup_and_restore(start: Start, tmp_path: Path) -> None:
    """A copy that is made while the service answers has each line that was answered before; one after a stop has all.

    The first may have the beginning of a further line, as a store after a crash has; the next start repairs it.
    """
    store = tmp_path / "house"
    service = start("one", store)
    assert service.is_ready()
    service.send("emp", line("put_token", token=TOKEN))
    service.send("cpo", line("put_tariff", tariff=tariff()), line("post", cdr=cdr("S1")))
    service.send("hub", line("close", period=0))

    stopped = threading.Event()

    def run() -> None:
        with httpx.Client(base_url=service.client.base_url, timeout=60) as client:
            number = 0
            while not stopped.is_set():
                number += 1
                lines = [line("post", cdr=cdr(f"R{number}-{k}", 0.04, 0.01)) for k in range(30)]
                service.send("cpo", *lines, client=client)

    thread = threading.Thread(target=run)
    thread.start()
    copies = []
    for number in range(5):
        time.sleep(0.2)
        before = service.client.get("/health").json()["lines"]
        copy = tmp_path / f"copy-{number}"
        subprocess.run(["cp", "-r", str(store), str(copy)], check=True)
        copies.append((copy, before))
    stopped.set()
    thread.join()
    whole = reads(service)
    assert service.stop() in (0, -signal.SIGTERM)
    log = output("log", str(store), "--answers")
    for copy, before in copies:
        checked = json.loads(output("check", str(copy)))
        assert checked["kept"] >= before > 0
        assert log.startswith(output("log", str(copy), "--answers"))

    subprocess.run(["cp", "-r", str(store), str(tmp_path / "whole")], check=True)
    restored = start("two", tmp_path / "whole")
    assert restored.is_ready()
    assert reads(restored) == whole
    earlier = start("three", copies[2][0])
    assert earlier.is_ready()
    assert earlier.client.get("/health").json()["lines"] >= copies[2][1]
    assert json.loads(output("check", str(copies[2][0])))["torn"] is False
    assert reads(earlier)[3:] == whole[3:]
    (again,) = earlier.send("cpo", line("post", cdr=cdr("S1"))).content.splitlines()
    assert json.loads(again)["answer"] == "Repeated"


def test_figures_need_a_token_or_an_address(make: Make) -> None:
    port = free_port()
    service = make(metrics=f"127.0.0.1:{port}")
    assert service.get(None, "/metrics").status_code == 401
    assert service.get("hub", "/metrics").status_code == 403
    assert service.get("metrics", "/clearing/sender").status_code == 403
    assert service.get("metrics", "/metrics").status_code == 200
    beside = httpx.get(f"http://127.0.0.1:{port}/metrics")
    assert beside.status_code == 200 and "clear_lines 0.0" in beside.text
    assert httpx.get(f"http://127.0.0.1:{port}/clearing/sender").status_code == 404


def test_counts_of_parties_and_their_limits(make: Make, tmp_path: Path) -> None:
    limits = {"cdrs": 10, "entries": 50}
    (tmp_path / "config.json").write_text(json.dumps(changed(CONFIGURATION, limits=limits)))
    service = make(folder=tmp_path)
    service.lines("emp", line("put_token", token=TOKEN))
    service.lines("cpo", line("put_tariff", tariff=tariff()))
    service.lines("cpo", *[line("post", cdr=cdr(f"S{number}", 1, 0.25)) for number in range(9)])
    assert service.health()["warnings"] == []
    service.lines("cpo", line("post", cdr=cdr("S9", 1, 0.25)))
    assert service.health()["warnings"] == ["NL/CPA has 10 of 10 cdrs"]
    assert service.lines("cpo", line("post", cdr=cdr("S10", 1, 0.25)))[0]["what"] == "Cdrs"
    assert figures(service, "clear_party_cdrs") == {("NL/CPA",): 10}
    assert figures(service, "clear_party_tariffs") == {("NL/CPA",): 1}
    assert figures(service, "clear_party_entries") == {("NL/MSA",): 11}
    assert figures(service, "clear_party_cdrs_limit") == {(): 10}
    assert figures(service, "clear_party_entries_limit") == {(): 50}
    assert figures(service, "clear_store_bytes")[()] > 10 * len(json.dumps(cdr()))
    assert figures(service, "clear_memory_bytes")[("service",)] > 1e6
    assert len(figures(service, "clear_version")) == 1


UNREAD = """
import os, sys
reading, writing = os.pipe()
os.set_inheritable(reading, True)
os.dup2(writing, 1)
os.dup2(writing, 2)
os.execv(sys.argv[1], sys.argv[1:])
"""


def test_a_log_that_nobody_reads(start: Start, tmp_path: Path) -> None:
    """Neither it nor clients that do nothing stop the others, or the end after SIGTERM."""
    service = start("one", tmp_path / "house", before=["/usr/bin/python3", "-c", UNREAD])
    assert service.is_ready()
    for _ in range(60):
        assert service.status("/" + "x" * 4000) == 401
    assert service.send("emp", EXPOSURE).status_code == 200
    clients = [socket.create_connection(("127.0.0.1", service.port)) for _ in range(3)]
    clients[1].sendall(b"POST /clearing/lines HTTP/1.1\r\nHost: x\r\n")
    head = f"Host: x\r\nAuthorization: Token {service.tokens['emp']}\r\nContent-Length: 100\r\n\r\n"
    clients[2].sendall(f"POST /clearing/lines HTTP/1.1\r\n{head}".encode())
    time.sleep(0.2)
    began = time.monotonic()
    assert service.stop() in (0, -signal.SIGTERM)
    assert time.monotonic() - began < 25
    for client in clients:
        client.close()
