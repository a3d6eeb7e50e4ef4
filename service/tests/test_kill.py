"""Eight clients and more send lines with request ids, while the program, the service and the database are killed.

Over PostgreSQL there are two services, each with a worker; a worker that has the lock is also paused, and its session ended.
Three tests do what the random moments may miss: a pause between an answer and the table, a stopped server, another program.

Each client sends a body again with the same request ids until it has the answers. In the end the answers of all clients
are those of one `clear stream` over the kept requests, no line is lost, and none is done twice. The variables
CLEAR_TEST_LINES and CLEAR_TEST_KILLS make the test larger.
"""

from __future__ import annotations

import json
import os
import random
import signal
import subprocess
import sys
import threading
import time
from collections.abc import Iterator
from pathlib import Path
from typing import Any

import httpx
import psycopg
import pytest
from clear_service.answers import without_cause
from clear_service.senders import TokenFile
from clear_service.settings import settings_of

from conftest import SERVICE, MakeStore, Postgres, begin_if_new, free_port, program_of, wait_until

LOAD = SERVICE.parent / "bench" / "clearing_load"
LINES = int(os.environ.get("CLEAR_TEST_LINES", "2000"))
KILLS = int(os.environ.get("CLEAR_TEST_KILLS", "6"))
LONGEST = 400 + LINES / 10  # seconds
AHEAD = 40  # lines that are answered after the place of a kill, at most, while something is killed
PROGRAM = settings_of("", "").program
HOLDER = """
    select application_name, pid from pg_locks join pg_stat_activity using (pid)
    where locktype = 'advisory' and granted and application_name like 'worker %'"""


class Process:
    """A service in a process of its own, which is started again when it was killed."""

    def __init__(self, folder: Path, store: str, first: Process | None = None) -> None:
        self.folder, self.store = folder, store
        self.tokens: dict[str, str]
        self.config = folder / "config.json"
        if first is not None:
            self.port, self.tokens = free_port(), first.tokens
            self.url = f"http://127.0.0.1:{self.port}"
            self.start()
            return
        self.config.write_bytes(
            subprocess.run([sys.executable, str(LOAD), "config"], capture_output=True, check=True).stdout
        )
        self.port = free_port()
        self.url = f"http://127.0.0.1:{self.port}"
        names = [item["name"] for item in json.loads(self.config.read_bytes())["platforms"]]
        file = TokenFile(str(folder / "tokens"))
        self.tokens = {name: file.add(name) for name in names}
        begin_if_new(settings_of(str(self.config), self.store))
        self.start()

    def start(self) -> None:
        environment = {
            **os.environ,
            "CLEAR": PROGRAM,
            "CLEAR_TOKENS": str(self.folder / "tokens"),
            "CLEAR_PORT": str(self.port),
            "CLEAR_REQUESTS_A_SECOND": "100000",
            "CLEAR_QUEUE_LINES": "60",
        }
        with open(self.folder / "said", "ab") as said:
            words = [str(SERVICE / "start"), str(self.config), self.store]
            self.process = subprocess.Popen(words, env=environment, stdout=subprocess.DEVNULL, stderr=said)

    def details(self) -> dict[str, Any]:
        try:
            return dict(httpx.get(self.url + "/health", timeout=20).json()["details"])
        except httpx.HTTPError:
            return {}

    def kill(self) -> None:
        self.process.kill()
        self.process.wait()
        self.start()

    def end(self) -> None:
        self.process.send_signal(signal.SIGTERM)
        assert self.process.wait(180) in (0, -signal.SIGTERM)


class Pace:
    """How many lines all clients may have answers to, so that they do not end before the last kill."""

    def __init__(self) -> None:
        self.clients: list[Client] = []
        self.most = 1 << 30

    def done(self) -> int:
        """How many lines have answers."""
        return sum(len(client.answers) for client in self.clients)

    def wait(self) -> None:
        """Waits until another line may be sent."""
        while self.done() >= self.most:
            time.sleep(0.01)


class Client(threading.Thread):
    """Sends the lines of one platform, some at a time, and has an answer to each in the end."""

    pace = Pace()

    def __init__(self, process: Process, platform: str, lines: list[bytes], seed: int) -> None:
        super().__init__(daemon=True)
        self.process, self.platform, self.lines = process, platform, lines
        self.rng = random.Random(seed)
        self.answers: list[bytes] = []
        self.again = 0

    def run(self) -> None:
        headers = {"Authorization": f"Token {self.process.tokens[self.platform]}"}
        with httpx.Client(base_url=self.process.url, timeout=20, headers=headers) as http:
            while len(self.answers) < len(self.lines):
                self.pace.wait()
                some = self.lines[len(self.answers) :][: self.rng.randint(1, 20)]
                self.answers += self.sent(http, some)

    def sent(self, http: httpx.Client, lines: list[bytes]) -> list[bytes]:
        body = b"".join(line + b"\n" for line in lines)
        while True:
            try:
                response = http.post("/clearing/lines", content=body)
                if response.status_code == 200:
                    answers = response.content.splitlines()
                    assert len(answers) == len(lines)
                    return answers
                assert response.status_code == 503 and "Retry-After" in response.headers, response.text
            except httpx.HTTPError:
                pass
            self.again += 1
            time.sleep(0.02 + self.rng.random() * 0.1)


def by_platform() -> dict[str, list[bytes]]:
    """The first lines of the load, each with a request id."""
    made = subprocess.run(
        [sys.executable, str(LOAD), str(LINES // 2)], capture_output=True, check=True
    ).stdout
    found: dict[str, list[bytes]] = {}
    for number, line in enumerate(made.splitlines()[:LINES]):
        platform = json.loads(line)["platform"]
        beginning = b'{"platform":"' + platform.encode() + b'",'
        assert line.startswith(beginning)
        with_id = beginning + b'"request_id":"%d",' % number + line[len(beginning) :]
        found.setdefault(platform, []).append(with_id)
    return found


def streamed(config: Path, lines: list[bytes]) -> list[bytes]:
    given = b"".join(line + b"\n" for line in lines)
    return subprocess.run(
        [PROGRAM, "stream", str(config)], input=given, capture_output=True, check=True
    ).stdout.splitlines()


def kept(store: str) -> list[bytes]:
    """The requests that the store keeps, in their order."""
    if store.startswith("postgresql://"):
        with psycopg.connect(store) as session:
            return [bytes(row[0]) for row in session.execute("select line from requests order by number")]
    return subprocess.run([PROGRAM, "log", store], capture_output=True, check=True).stdout.splitlines()


def stored_answers(store: str) -> list[bytes]:
    with psycopg.connect(store) as session:
        return [
            without_cause(bytes(row[0]))
            for row in session.execute("select line from answers order by number")
        ]


def check(process: Process, clients: list[Client]) -> None:
    requests = kept(process.store)
    answers = streamed(process.config, requests)
    if process.store.startswith("postgresql://"):
        assert stored_answers(process.store) == answers
    first: dict[bytes, bytes] = {}
    for line, answer in zip(requests, answers, strict=True):
        assert first.setdefault(line, answer) == answer
    once = list(first)
    assert streamed(process.config, once) == list(first.values())
    sent = [line for client in clients for line in client.lines]
    assert sorted(once) == sorted(sent)
    for client in clients:
        assert client.answers == [first[line] for line in client.lines]


def kill_pid(pid: object) -> bool:
    if not isinstance(pid, int):
        return False
    try:
        os.kill(pid, signal.SIGKILL)
    except ProcessLookupError:
        return False
    return True


def holder(store: str) -> tuple[int, int] | None:
    """The worker that has the lock, and its session's process at the server."""
    with psycopg.connect(store) as session:
        row = session.execute(HOLDER).fetchone()
    return (int(row[0].split()[-1]), row[1]) if row else None


def pause(store: str) -> bool:
    """Pauses the worker that has the lock, ends its session, and lets it go on when another worker has the lock."""
    found = holder(store)
    if found is None:
        return False
    worker, session_id = found
    os.kill(worker, signal.SIGSTOP)
    try:
        with psycopg.connect(store) as session:
            session.execute("select pg_terminate_backend(%s)", (session_id,))
        assert wait_until(lambda: (holder(store) or (worker, 0))[0] != worker), "no other worker has the lock"
    finally:
        os.kill(worker, signal.SIGCONT)
    return True


def kill_something(processes: list[Process], kind: str, postgres: Postgres | None) -> bool:
    """Kills it; whether there was something to kill."""
    process = random.choice(processes)
    details = process.details()
    if kind == "session":
        return pause(process.store)
    if kind == "service":
        process.kill()
        return True
    if kind == "server" and postgres is not None:
        postgres.stop()
        time.sleep(random.random() / 2)
        postgres.start()
        return True
    if kind == "both":
        worker = details.get("worker")
        return kill_pid(program_of(worker)) and kill_pid(worker)
    if kind == "program":
        return kill_pid(details.get("pid") or program_of(details.get("worker")))
    return kill_pid(details.get("worker"))


def run(processes: list[Process], kinds: list[str], postgres: Postgres | None) -> tuple[list[Client], int]:
    """Runs the clients to their end, with kills meanwhile; returns them and the number of kills."""
    of = [(n, processes[n % len(processes)], *each) for n, each in enumerate(by_platform().items())]
    clients = [Client(process, name, lines, n) for n, process, name, lines in of]
    total = sum(len(client.lines) for client in clients)
    places = [*sorted(random.sample(range(total // 20, total * 8 // 10), KILLS)), total]
    pace = Pace()
    pace.clients, pace.most = clients, places[0] + AHEAD
    assert wait_until(lambda: all(process.details() for process in processes))
    for client in clients:
        client.pace = pace
        client.start()
    until, kills = time.monotonic() + LONGEST, 0
    while any(client.is_alive() for client in clients):
        assert time.monotonic() < until, "not all is answered"
        if kills < KILLS and pace.done() >= places[kills]:
            pace.most = places[kills + 1] + AHEAD
            kills += kill_something(processes, kinds[kills % len(kinds)], postgres)
        time.sleep(0.02)
    return clients, kills


def test_kills(engine: str, make_store: MakeStore, tmp_path: Path, request: pytest.FixtureRequest) -> None:
    processes = [Process(tmp_path, make_store())]
    postgres, kinds = None, ["program", "service"]
    if engine == "postgresql":
        postgres, kinds = request.getfixturevalue("postgres"), [
            "program",
            "session",
            "service",
            "server",
            "worker",
            "both",
        ]
        processes.append(Process(tmp_path, processes[0].store, processes[0]))
    try:
        clients, kills = run(processes, kinds, postgres)
        for process in processes:
            process.end()
        assert kills == KILLS and sum(client.again for client in clients) > 0
        check(processes[0], clients)
    finally:
        for process in processes:
            process.process.kill()


@pytest.fixture
def over_postgres(postgres: Postgres, tmp_path: Path) -> Iterator[Process]:
    """A service over a database of its own, whose worker has the lock."""
    process = Process(tmp_path, postgres.store())
    try:
        assert wait_until(lambda: process.details().get("worker") and holder(process.store))
        yield process
    finally:
        process.process.kill()
        process.process.wait()


def first_client(process: Process, count: int) -> Client:
    """A client with some lines of the first platform."""
    platform, lines = next(iter(by_platform().items()))
    return Client(process, platform, lines[:count], 1)


def counts(store: str) -> tuple[int, int]:
    """How many requests and answers the database has."""
    with psycopg.connect(store) as session:
        row = session.execute(
            "select (select count(*) from requests), (select count(*) from answers)"
        ).fetchone()
    assert row is not None
    return int(row[0]), int(row[1])


def test_a_paused_worker_stores_nothing_after_its_session(over_postgres: Process, tmp_path: Path) -> None:
    """It is paused between the answers of its program and the table. Its session is ended, another worker has stored them, and it goes on."""
    store, found = over_postgres.store, holder(over_postgres.store)
    assert found is not None
    worker, session_id = found
    program = program_of(worker)
    assert program is not None
    other = Process(tmp_path, store, over_postgres)
    client = first_client(other, 40)
    try:
        assert wait_until(lambda: other.details().get("worker"))
        os.kill(program, signal.SIGSTOP)
        client.start()
        assert wait_until(lambda: counts(store)[0] > 0)
        time.sleep(1.5)
        assert counts(store)[1] == 0
        os.kill(worker, signal.SIGSTOP)
        with psycopg.connect(store) as session:
            session.execute("select pg_terminate_backend(%s)", (session_id,))
        os.kill(program, signal.SIGCONT)
        client.join(180)
        assert not client.is_alive()
        os.kill(worker, signal.SIGCONT)
        assert wait_until(lambda: over_postgres.details().get("worker") not in (None, worker))
        check(over_postgres, [client])
    finally:
        other.process.kill()


def test_a_stopped_server(over_postgres: Process, postgres: Postgres) -> None:
    before, after = first_client(over_postgres, 20), first_client(over_postgres, 40)
    after.lines = after.lines[20:]
    before.run()
    postgres.stop()
    try:
        assert wait_until(lambda: httpx.get(over_postgres.url + "/ready", timeout=60).status_code == 503)
        after.start()
        assert wait_until(lambda: after.again > 0)
    finally:
        postgres.start()
    after.join(180)
    assert not after.is_alive()
    check(over_postgres, [before, after])


def test_a_worker_with_another_program(over_postgres: Process, tmp_path: Path) -> None:
    """It finds that its program answers otherwise while it stands by, and ends."""
    client = first_client(over_postgres, 20)
    client.run()
    program = tmp_path / "other"
    program.write_text(f"#!/bin/sh\n'{PROGRAM}' \"$@\" 2> /dev/null | sed -u s/1000/1001/\n")
    program.chmod(0o755)
    done = subprocess.run(
        [str(SERVICE / "worker"), over_postgres.store],
        env={**os.environ, "CLEAR": str(program)},
        capture_output=True,
        timeout=600,
    )
    assert (done.returncode, done.stdout) == (1, b"")
    assert done.stderr == b"worker: the answer to request 1 is not the one that is stored\n"
    check(over_postgres, [client])
