"""Receipts: the heads that the program finds in the store."""

from __future__ import annotations

import json
import os
import random
import shutil
import signal
import subprocess
import threading
from pathlib import Path

import pytest

from conftest import Make, MakeStore, Service, wait_until
from examples import TOKEN, TOKENS, line
from started import PROGRAM

EXPOSURE = line("exposure", provider="NL/MSA", currency="EUR")


@pytest.fixture
def keep(engine: str) -> None:
    if engine != "keep":
        pytest.skip("of the engine keep")


def receipt(service: Service, kept: int | None = None, platform: str = "emp") -> tuple[int, str]:
    response = service.get(platform, "/clearing/receipt" + ("" if kept is None else f"/{kept}"))
    assert response.status_code == 200, response.text
    found = response.json()
    assert sorted(found) == ["head", "kept", "time"]
    return found["kept"], found["head"]


def program(*words: str) -> subprocess.CompletedProcess[str]:
    return subprocess.run([PROGRAM, *words], capture_output=True, text=True, check=False)


def head(store: str, kept: int) -> tuple[int, str]:
    """The same by the program."""
    found = json.loads(program("head", store, "--at", str(kept)).stdout)
    return found["kept"], found["head"]


def test_receipts_are_those_of_the_store(keep: None, make: Make, make_store: MakeStore) -> None:
    store = make_store()
    service = make(store)
    assert receipt(service) == head(store, 0)
    rng = random.Random(3)
    given = [receipt(service)]
    for _ in range(12):
        service.lines("emp", *[EXPOSURE] * rng.randint(1, 30))
        given.append(receipt(service))
        assert given[-1] == head(store, given[-1][0])
    last = given[-1][0]
    for platform in ("cpo", "hub"):
        assert receipt(service, last, platform) == given[-1]
    assert len({each[1] for each in given}) == len(given)
    for kept in range(last + 1):
        assert receipt(service, kept) == head(store, kept)
    service.stop()
    service.start()
    assert [receipt(service, kept) for kept, _ in given] == given and receipt(service) == given[-1]


def test_a_party_checks_a_copy(keep: None, make: Make, make_store: MakeStore, tmp_path: Path) -> None:
    """A copy with more lines has the receipt's first ones; one with another line, or with fewer, has not."""
    store = make_store()
    service = make(store)
    service.lines("emp", *[EXPOSURE] * 5)
    kept, found = receipt(service)
    service.lines("emp", *[EXPOSURE] * 5)
    copy = tmp_path / "copy"
    shutil.copytree(store, copy)
    words = ("check", str(copy), "--at", str(kept), "--head", found)
    assert program(*words).returncode == 0
    other = program("log", store).stdout.replace("EUR", "SEK", 1)
    for lines in (other, "\n".join(other.splitlines()[:4]) + "\n"):
        shutil.rmtree(copy)
        subprocess.run(
            [PROGRAM, "keep", str(service.config), str(copy)],
            input=lines.encode(),
            capture_output=True,
            check=True,
        )
        refused = program(*words)
        assert refused.returncode == 1 and refused.stderr.startswith("clear: "), refused


def test_receipts_while_lines_are_answered(keep: None, make: Make, make_store: MakeStore) -> None:
    """Also while the program is killed: a receipt that was given stays true."""
    store = make_store()
    service = make(store)
    given: list[tuple[int, str]] = []
    stopped = threading.Event()

    def send() -> None:
        while not stopped.is_set():
            service.send("emp", "POST", "/clearing/lines", content="\n".join([EXPOSURE] * 50).encode())

    threads = [threading.Thread(target=send) for _ in range(3)]
    for thread in threads:
        thread.start()
    try:
        for number in range(60):
            response = service.get("cpo", "/clearing/receipt")
            if response.status_code == 200:
                given.append((response.json()["kept"], response.json()["head"]))
            else:
                assert response.status_code == 503, response.text
            if number % 20 == 10:
                starts = service.health()["starts"]
                os.kill(service.health()["details"]["pid"], signal.SIGKILL)
                assert wait_until(lambda: service.health()["starts"] > starts)
                assert service.is_ready()
    finally:
        stopped.set()
        for thread in threads:
            thread.join()
    assert len(given) > 20 and sorted(given) == given
    for kept, found in given:
        assert head(store, kept) == (kept, found)


@pytest.mark.parametrize("kept", ["-1", "x", "1.0", "²", "1" * 19])
def test_a_number_of_lines_that_is_none(service: Service, kept: str) -> None:
    assert service.get("emp", f"/clearing/receipt/{kept}").status_code == 400


def test_more_lines_than_are_answered(make: Make) -> None:
    service = make()
    assert service.send("emp", "PUT", TOKENS, json=TOKEN).status_code == 200
    response = service.get("emp", "/clearing/receipt/2")
    assert (response.status_code, response.json()) == (404, {"error": "1 lines are kept and answered"})


def test_without_a_token(service: Service) -> None:
    for path in ("/clearing/receipt", "/clearing/receipt/0"):
        assert service.get(None, path).status_code == 401


def test_a_database_has_none(make: Make, engine: str) -> None:
    if engine != "postgresql":
        pytest.skip("of the engine over PostgreSQL")
    service = make()
    for path in ("/clearing/receipt", "/clearing/receipt/0"):
        response = service.get("hub", path)
        assert response.status_code == 501 and "a database has no record" in response.json()["error"]
    assert service.get("hub", "/clearing/receipt/1").status_code == 404


def test_a_store_that_is_gone(keep: None, make: Make, make_store: MakeStore) -> None:
    store = Path(make_store())
    service = make(str(store), longest_pause=1)
    service.lines("emp", EXPOSURE)
    store.rename(store.with_name("away"))
    assert service.get("emp", "/clearing/receipt").status_code == 503
    store.with_name("away").rename(store)
    assert service.is_ready()
    assert receipt(service) == head(str(store), 1)
