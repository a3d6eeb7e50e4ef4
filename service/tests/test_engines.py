"""The engines: ends of the program, torn stores, several services over one database."""

from __future__ import annotations

import asyncio
import contextlib
import os
import signal
import threading
import time
from pathlib import Path
from typing import Any

import psycopg
import pytest
from clear_service.postgres_database import AT_ONCE, MAY_TAKE_LONG, THEIRS
from clear_service.postgres_engine import ANSWERED
from clear_service.postgres_worker import ANSWERS, REQUESTS

from conftest import Make, MakeStore, Service, program_of, wait_until
from examples import AUTHORIZE, CONFIGURATION, TARIFF, TARIFFS, TOKEN, TOKENS, cdr, line


@pytest.fixture
def keep(engine: str) -> None:
    if engine != "keep":
        pytest.skip("of the engine keep")


@pytest.fixture
def database(engine: str) -> None:
    if engine != "postgresql":
        pytest.skip("of the engine over PostgreSQL")


def test_the_program_ends_while_requests_wait(keep: None, make: Make) -> None:
    service = make()
    assert service.send("emp", "PUT", TOKENS, json=TOKEN).status_code == 200
    child = service.health()["details"]["pid"]
    os.kill(child, signal.SIGSTOP)
    responses = []

    def send(number: int) -> None:
        ids = {"X-Request-ID": str(number)}
        responses.append(service.send("cpo", "POST", AUTHORIZE, headers=ids))

    threads = [threading.Thread(target=send, args=(number,)) for number in range(5)]
    for thread in threads:
        thread.start()
    assert wait_until(lambda: service.health()["waiting"] == 5)
    os.kill(child, signal.SIGKILL)
    for thread in threads:
        thread.join()
    assert [(each.status_code, each.headers["Retry-After"]) for each in responses] == [(503, "1")] * 5
    assert service.is_ready()
    health = service.health()
    assert health["starts"] == 2 and "status -9" in health["last_end"]
    for number in (3, 3, 0, 1, 2, 4, 3):
        send(number)
    given = {each.request.headers["X-Request-ID"]: each.json()["data"] for each in responses[5:]}
    assert sorted(data["authorization_reference"] for data in given.values()) == [
        f"NLMSA-{n}" for n in range(1, 6)
    ]
    assert len(service.get("hub", "/clearing/holds").json()) == 5


def is_gone(pid: int) -> bool:
    """Whether the process has ended, also if nobody has waited for it yet."""
    try:
        return Path(f"/proc/{pid}/stat").read_text().rpartition(")")[2].split()[0] == "Z"
    except OSError:
        return True


def is_started_again(service: Service, name: str, hung: int) -> None:
    """A process of this name in /health, which hangs, is killed while a request waits, and another one answers it."""
    before = service.health()["details"][name]
    os.kill(hung, signal.SIGSTOP)
    ids = {"X-Request-ID": "hung"}
    response = service.send("cpo", "POST", AUTHORIZE, headers=ids)
    assert (response.status_code, response.headers["Retry-After"]) == (503, "1")
    assert wait_until(lambda: service.health()["details"].get(name) not in (None, before))
    assert service.is_ready()
    assert "answered nothing for 2 seconds and was killed" in service.health()["last_end"]
    assert wait_until(lambda: service.send("cpo", "POST", AUTHORIZE, headers=ids).status_code == 200)
    again = service.send("cpo", "POST", AUTHORIZE, headers=ids)
    assert again.json()["data"]["authorization_reference"] == "NLMSA-1"
    assert wait_until(lambda: is_gone(hung))
    assert len(service.get("hub", "/clearing/holds").json()) == 1


def test_a_program_that_hangs(keep: None, make: Make) -> None:
    service = make(answer_seconds=2)
    service.send("emp", "PUT", TOKENS, json=TOKEN)
    os.kill(service.health()["details"]["pid"], signal.SIGSTOP)
    time.sleep(3)
    os.kill(service.health()["details"]["pid"], signal.SIGCONT)
    assert service.health()["starts"] == 1
    is_started_again(service, "pid", service.health()["details"]["pid"])


def test_a_worker_that_hangs(database: None, make: Make) -> None:
    service = make(answer_seconds=2)
    service.send("emp", "PUT", TOKENS, json=TOKEN)
    is_started_again(service, "worker", service.health()["details"]["worker"])


def test_a_program_of_a_worker_that_hangs(database: None, make: Make) -> None:
    service = make(answer_seconds=2)
    service.send("emp", "PUT", TOKENS, json=TOKEN)
    program = program_of(service.health()["details"]["worker"])
    assert program is not None
    is_started_again(service, "worker", program)


def test_a_change_may_take_long(engine: str, make: Make) -> None:
    """A program that does not answer while it changes the configuration is not killed."""
    service = make(answer_seconds=2)
    details = service.health()["details"]
    program = details.get("pid") or program_of(details["worker"])
    assert program is not None
    os.kill(program, signal.SIGSTOP)
    body = "\n".join((line("close", period=0), line("configure", configuration=CONFIGURATION)))
    if engine == "keep":
        body = line("configure", configuration=CONFIGURATION)
    assert service.send("hub", "POST", "/clearing/lines", content=body.encode()).status_code == 503
    time.sleep(4)
    assert Path(f"/proc/{program}").exists()
    os.kill(program, signal.SIGCONT)
    assert wait_until(lambda: service.health()["lines"] == len(body.splitlines()))
    assert service.health()["starts"] == 1 and service.health()["last_end"] is None


def test_ready_tells_whether_a_worker_has_the_lock(database: None, make: Make, make_store: MakeStore) -> None:
    store = make_store()
    one, two = make(store, longest_pause=1), make(store, worker=0)
    worker = one.health()["details"]["worker"]
    for each in (one, two):
        assert each.health()["details"]["answering"].split()[-1] == str(worker)
    one.stop()
    assert wait_until(lambda: two.client.get("/ready").status_code == 503)
    health = two.health()
    assert (health["status"], health["ready"], health["details"]["answering"]) == ("down", False, None)
    one.start()
    assert wait_until(lambda: two.client.get("/ready").status_code == 200)
    assert two.health()["details"]["answering"].split()[-1] == str(one.health()["details"]["worker"])


def test_a_torn_store(
    keep: None, make: Make, make_store: MakeStore, caplog: pytest.LogCaptureFixture
) -> None:
    store = make_store()
    service = make(store)
    service.send("emp", "PUT", TOKENS, json=TOKEN)
    assert not service.health()["torn"]
    service.stop()
    torn = b' 00000017 {"platform":"cpo"'
    with open(Path(store) / "requests", "ab") as file:
        file.write(torn)
    again = make(store)
    health = again.health()
    assert health["torn"] and health["status"] == "up" and health["events"] == 1
    assert again.send("cpo", "POST", AUTHORIZE).json()["data"]["allowed"] == "ALLOWED"
    assert (Path(store) / "torn").read_bytes() == torn
    assert f"{len(torn)} bytes from byte" in caplog.text and "added to torn" in caplog.text
    again.stop()
    last = make(store).health()
    assert not last["torn"] and last["last_end"] is None and last["events"] == 2


def test_a_torn_end_that_cannot_be_kept(
    keep: None, make: Make, make_store: MakeStore, monkeypatch: pytest.MonkeyPatch
) -> None:
    store = make_store()
    make(store).stop()
    with open(Path(store) / "requests", "ab") as file:
        file.write(b" 000")
    before = (Path(store) / "requests").read_bytes()
    (Path(store) / "torn").mkdir()
    with monkeypatch.context() as patch:
        patch.setattr(Service, "is_ready", lambda self: True)
        service = make(store, longest_pause=1)
    assert wait_until(lambda: "the torn end cannot be kept" in (service.health()["last_end"] or ""))
    assert service.get(None, "/ready").status_code == 503
    assert (Path(store) / "requests").read_bytes() == before
    (Path(store) / "torn").rmdir()
    assert service.is_ready()


def test_a_store_that_cannot_be_opened(
    keep: None, make: Make, make_store: MakeStore, monkeypatch: pytest.MonkeyPatch
) -> None:
    store = make_store()
    service = make(store)
    os.kill(service.health()["details"]["pid"], signal.SIGSTOP)
    with monkeypatch.context() as patch:
        patch.setattr(Service, "is_ready", lambda self: True)
        other = make(store, longest_pause=1)
    assert wait_until(lambda: "another program has the store open" in (other.health()["last_end"] or ""))
    assert other.get(None, "/ready").status_code == 503
    os.kill(service.health()["details"]["pid"], signal.SIGCONT)
    assert service.send("emp", "PUT", TOKENS, json=TOKEN).status_code == 200


def test_a_program_that_is_not_there(keep: None, make: Make, monkeypatch: pytest.MonkeyPatch) -> None:
    monkeypatch.setattr(Service, "is_ready", lambda self: True)
    service = make(program="/nowhere/clear", longest_pause=1)
    assert wait_until(lambda: service.health()["last_end"] is not None)
    assert service.get(None, "/ready").status_code == 503
    response = service.send("emp", "PUT", TOKENS, json=TOKEN)
    assert (response.status_code, response.headers["Retry-After"]) == (503, "1")
    assert service.get("hub", "/clearing/holds").status_code == 503


def test_no_time_is_known(keep: None, make: Make, make_store: MakeStore) -> None:
    store = make_store()
    service = make(store)
    service.send("emp", "PUT", TOKENS, json=TOKEN)
    service.send("cpo", "POST", AUTHORIZE)
    service.stop()
    (Path(store) / "service-times").unlink()
    (hold,) = make(store).get("hub", "/clearing/holds").json()
    assert hold["since"] is None and 0 <= hold["age_seconds"] < 60


def test_two_services_over_one_database(database: None, make: Make, make_store: MakeStore) -> None:
    store = make_store()
    one, two = make(store), make(store, worker=0)
    assert one.send("emp", "PUT", TOKENS, json=TOKEN).status_code == 200
    assert two.send("cpo", "PUT", TARIFFS, json=TARIFF).status_code == 200
    assert two.send("cpo", "POST", AUTHORIZE).json()["data"]["authorization_reference"] == "NLMSA-1"
    assert one.send("cpo", "POST", AUTHORIZE).json()["data"]["authorization_reference"] == "NLMSA-2"
    answers = two.lines("cpo", line("post", cdr=cdr()), line("find", operator="NL/CPA", id="S1"))
    assert [answer["answer"] for answer in answers] == ["Accepted", "Found"]
    for each in (one, two):
        assert wait_until(lambda: each.health()["lines"] == 6)
        assert [hold["reference"] for hold in each.get("hub", "/clearing/holds").json()] == [
            "NLMSA-1",
            "NLMSA-2",
        ]
    assert one.get("cpo", "/ocpi/2.2.1/cdrs/S1").json()["data"] == cdr()


def test_a_role_that_may_only_send(database: None, make: Make, make_store: MakeStore) -> None:
    store = make_store()
    one = make(store)
    with psycopg.connect(store) as session:
        session.execute("create role front login")
        session.execute("grant execute on function send to front")
        session.execute("grant select on house, requests, answers, last_request to front")
    two = make(store.replace("postgres@", "front@"), worker=0)
    assert two.send("emp", "PUT", TOKENS, json=TOKEN).status_code == 200
    assert two.health()["details"]["answering"] == one.health()["details"]["answering"] is not None
    with psycopg.connect(store) as session:
        session.execute("drop owned by front")
        session.execute("drop role front")


def test_a_worker_that_stands_by(database: None, make: Make, make_store: MakeStore) -> None:
    store = make_store()
    one, two = make(store), make(store)
    assert one.send("emp", "PUT", TOKENS, json=TOKEN).status_code == 200
    for service in (one, two, one):
        os.kill(service.health()["details"]["worker"], signal.SIGKILL)
        assert two.send("cpo", "POST", AUTHORIZE).json()["data"]["allowed"] == "ALLOWED"
    one.stop()
    assert two.send("cpo", "POST", AUTHORIZE).json()["data"]["authorization_reference"] == "NLMSA-4"


def test_an_answer_that_is_not_the_stored_one(
    database: None, make: Make, make_store: MakeStore, monkeypatch: pytest.MonkeyPatch
) -> None:
    store = make_store()
    service = make(store)
    service.send("emp", "PUT", TOKENS, json=TOKEN)
    service.stop()
    with psycopg.connect(store) as session:
        session.execute("update answers set line = replace(line::text, 'at', 'at')::bytea || ' '::bytea")
    monkeypatch.setattr(Service, "is_ready", lambda self: True)
    again = make(store, answer_seconds=2)
    assert wait_until(lambda: again.health()["details"].get("worker"))
    first = again.health()["details"]["worker"]
    assert wait_until(lambda: again.health()["details"]["worker"] != first)
    assert again.get(None, "/ready").status_code == 503
    assert again.send("emp", "PUT", TOKENS, json=TOKEN).status_code == 503
    with psycopg.connect(store) as session:
        assert session.execute("select count(*) from answers").fetchone() == (1,)


def test_a_read_that_is_cancelled(database: None, make: Make) -> None:
    """Wherever it is, the next one reads the line."""
    service = make()
    service.send("emp", "PUT", TOKENS, json=TOKEN)
    engine = service.app._app.state.house.engine  # type: ignore[attr-defined]

    async def read() -> None:
        for steps in range(30):
            task = asyncio.create_task(engine.line(1))
            for _ in range(steps):
                await asyncio.sleep(0.0005)
            task.cancel()
            with contextlib.suppress(asyncio.CancelledError):
                await task
            assert b"put_token" in await engine.line(1)

    asyncio.run_coroutine_threadsafe(read(), engine._runner.get_loop()).result(180)


def test_answers_that_were_stored_without_causes(database: None, make: Make, make_store: MakeStore) -> None:
    store = make_store()
    service = make(store)
    refused = service.send("cpo", "POST", "/ocpi/2.2.1/cdrs", json=cdr(cost=5.02))
    assert "found 5.020000" in refused.json()["status_message"]
    service.stop()
    with psycopg.connect(store) as session:
        session.execute(
            "update answers set line = convert_to(regexp_replace(convert_from(line, 'UTF8'), ',\"cause\":.*', '}'), 'UTF8')"
        )
        row = session.execute("select line from answers").fetchone()
    assert row is not None and row[0].endswith(b'"rated":"5.0000"}')
    assert make(store).send("emp", "PUT", TOKENS, json=TOKEN).status_code == 200


def scanned(plan: dict[str, Any]) -> list[tuple[str, int]]:
    """Each scan of a table in a plan, and how many rows it read."""
    inner = [found for each in plan.get("Plans", []) for found in scanned(each)]
    if "Relation Name" not in plan:
        return inner
    rows = (plan["Actual Rows"] + plan.get("Rows Removed by Filter", 0)) * plan["Actual Loops"]
    return [(plan["Node Type"], rows), *inner]


def test_lines_are_read_by_their_key_without_statistics(
    database: None, make: Make, make_store: MakeStore
) -> None:
    """After a load of many lines, a look at the next ones reads them alone, though the tables were never analyzed."""
    store = make_store()
    make(store).stop()
    count = 40_000
    with psycopg.connect(store, autocommit=True) as session:
        for table in ("requests", "answers"):
            session.execute(f"alter table {table} set (autovacuum_enabled = false)".encode())
        session.execute(
            "insert into requests (number, sender, place, line) select n, 's', n, '{}' from generate_series(1, %s) as n",
            (count,),
        )
        session.execute("insert into answers select n, '{}' from generate_series(1, %s) as n", (count,))
        session.execute(THEIRS)
        words = {"before": count - 3, "count": AT_ONCE, "parts": [b"x"]}
        for query in (ANSWERED, REQUESTS.decode(), ANSWERS.decode(), MAY_TAKE_LONG):
            row = session.execute(("explain (analyze, format json) " + query).encode(), words).fetchone()
            assert row is not None
            assert "JIT" not in row[0][0]
            found = scanned(row[0][0]["Plan"])
            assert found and all("Seq Scan" not in kind and rows <= 3 for kind, rows in found), found


def test_a_worker_that_loses_its_session(
    database: None, make: Make, make_store: MakeStore, caplog: pytest.LogCaptureFixture
) -> None:
    store = make_store()
    service = make(store)
    worker = service.health()["details"]["worker"]
    with psycopg.connect(store, autocommit=True) as session:
        session.execute(
            "select pg_terminate_backend(pid) from pg_stat_activity where application_name like %s",
            (f"%% {worker}",),
        )
    assert wait_until(lambda: service.health()["details"]["worker"] != worker)
    assert "the worker ended with status 1" in caplog.text and "worker: the database: " in caplog.text
    assert "Fatal" not in caplog.text and service.is_ready()
