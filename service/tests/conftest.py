"""Services to test: in this process, each over a store of its own, by both engines."""

from __future__ import annotations

import contextlib
import glob
import os
import pwd
import shutil
import socket
import subprocess
import sys
import tempfile
import threading
import time
import uuid
from collections.abc import Callable, Iterator
from dataclasses import replace
from pathlib import Path
from typing import Any

import httpx
import hypothesis
import psycopg
import pytest

SERVICE = Path(__file__).resolve().parents[1]
sys.path.insert(0, str(SERVICE))

from clear_service.app import create_app  # noqa: E402
from clear_service.first_start import begin, has_begun  # noqa: E402
from clear_service.senders import METRICS, TokenFile  # noqa: E402
from clear_service.server import server_of  # noqa: E402
from clear_service.settings import Settings, settings_of  # noqa: E402

from examples import CONFIG  # noqa: E402

hypothesis.settings.register_profile(
    "service", database=None, deadline=None, suppress_health_check=[hypothesis.HealthCheck.too_slow]
)
hypothesis.settings.load_profile("service")

# Modules whose tests say little of the engine: over PostgreSQL the gate leaves them out.
OF_NO_ENGINE = ("test_access", "test_refusals")

MakeStore = Callable[[], str]
Make = Callable[..., "Service"]
PLATFORMS = ("cpo", "emp", "hub", "cpb", "both")


def free_port() -> int:
    with socket.socket() as found:
        found.bind(("127.0.0.1", 0))
        return int(found.getsockname()[1])


def wait_until(condition: Callable[[], object], seconds: float = 180.0) -> bool:
    """Waits until the condition holds, at most so long; whether it does."""
    until = time.monotonic() + seconds
    while time.monotonic() < until:
        if condition():
            return True
        time.sleep(0.02)
    return bool(condition())


def program_of(pid: object) -> int | None:
    """The program that a worker has started."""
    try:
        words = Path(f"/proc/{pid}/task/{pid}/children").read_text().split()
    except OSError:
        return None
    return int(words[0]) if words else None


def begin_if_new(settings: Settings) -> None:
    """Begins the store, as `service/start --new` does, if it is not there."""
    if not has_begun(settings):
        begin(settings, new=True)


class Service:
    """A service in a thread of this process. `client` sends no token."""

    def __init__(self, folder: Path, store: str, **changes: Any) -> None:
        self.folder = folder
        self.config = folder / "config.json"
        self.tokens: dict[str, str] = {}
        if not self.config.exists():
            self.config.write_text(CONFIG)
        file = TokenFile(str(folder / "tokens"))
        for platform in PLATFORMS:
            self.tokens[platform] = file.add(platform)
        self.tokens["metrics"] = file.add(METRICS)
        settings = settings_of(str(self.config), store)
        given: dict[str, Any] = {
            "tokens": str(folder / "tokens"),
            "port": free_port(),
            "requests_a_second": 100_000,
            **changes,
        }
        self.settings: Settings = replace(settings, **given)
        begin_if_new(settings)
        self.url = f"http://127.0.0.1:{self.settings.port}"
        self.start()

    def start(self) -> None:
        self.app = create_app(self.settings)
        self.server = server_of(self.app, self.settings)
        self.server.install_signal_handlers = lambda: None
        self.thread = threading.Thread(target=self.server.run, daemon=True)
        self.thread.start()
        self.client = httpx.Client(base_url=self.url, timeout=180)
        assert wait_until(lambda: self.server.started)
        assert self.is_ready()

    def is_ready(self) -> bool:
        return wait_until(lambda: self.client.get("/ready").status_code == 200)

    def health(self) -> dict[str, Any]:
        found: dict[str, Any] = self.client.get("/health").json()
        return found

    def stop(self) -> None:
        self.client.close()
        self.server.should_exit = True
        self.thread.join(180)
        assert not self.thread.is_alive()

    def send(self, platform: str | None, method: str, path: str, **words: Any) -> httpx.Response:
        headers = dict(words.pop("headers", {}))
        if platform is not None:
            headers.setdefault("Authorization", f"Token {self.tokens[platform]}")
        return self.client.request(method, path, headers=headers, **words)

    def get(self, platform: str | None, path: str, **words: Any) -> httpx.Response:
        return self.send(platform, "GET", path, **words)

    def lines(self, platform: str, *lines: str) -> list[dict[str, Any]]:
        body = "".join(line + "\n" for line in lines)
        response = self.send(platform, "POST", "/clearing/lines", content=body.encode())
        assert response.status_code == 200, response.text
        return [httpx.Response(200, content=line).json() for line in response.content.splitlines()]


class Postgres:
    """A PostgreSQL server in a temporary folder, which listens to no port. A store is a database of it.

    It does not sync: the tests end processes, and no machine. It runs as the user postgres if the tests run as root.
    """

    def __init__(self) -> None:
        found = glob.glob("/usr/lib/postgresql/*/bin")
        if not found:
            pytest.skip("PostgreSQL is not installed")
        self.bin = max(found)
        self.folder = tempfile.mkdtemp(prefix="clear-postgres-")
        self.data = os.path.join(self.folder, "data")
        self.user: dict[str, Any] = {}
        if os.getuid() == 0:
            user = pwd.getpwnam("postgres")
            os.chown(self.folder, user.pw_uid, user.pw_gid)
            self.user = {"user": "postgres", "group": "postgres", "extra_groups": []}
        self.run(
            "initdb",
            "-D",
            self.data,
            "-U",
            "postgres",
            "-A",
            "trust",
            "-E",
            "UTF8",
            "--locale=C",
            "--no-sync",
        )
        self.start()

    def run(self, program: str, *words: str) -> None:
        log = open(os.path.join(self.folder, "said"), "ab")
        with log:
            subprocess.run(
                [os.path.join(self.bin, program), *words],
                stdout=log,
                stderr=log,
                cwd="/tmp",
                check=True,
                **self.user,
            )

    def start(self) -> None:
        options = f"-c listen_addresses='' -k '{self.folder}' -c max_connections=200 -c fsync=off"
        self.run(
            "pg_ctl", "start", "-w", "-D", self.data, "-l", os.path.join(self.folder, "log"), "-o", options
        )

    def stop(self) -> None:
        self.run("pg_ctl", "stop", "-w", "-m", "immediate", "-D", self.data)

    def store(self) -> str:
        name = "h" + uuid.uuid4().hex
        with psycopg.connect(self.dsn("postgres"), autocommit=True) as session:
            session.execute(f"create database {name}")
        return self.dsn(name)

    def dsn(self, name: str) -> str:
        return f"postgresql://postgres@/{name}?host={self.folder}"

    def end(self) -> None:
        with contextlib.suppress(subprocess.CalledProcessError):
            self.stop()
        shutil.rmtree(self.folder, ignore_errors=True)


def pytest_itemcollected(item: pytest.Item) -> None:
    """Marks tests that the gate leaves out."""
    if item.path.stem in OF_NO_ENGINE and "[postgresql" in item.name:
        item.add_marker("long")


@pytest.fixture(scope="session")
def postgres() -> Iterator[Postgres]:
    server = Postgres()
    yield server
    server.end()


@pytest.fixture(scope="module", params=["keep", "postgresql"])
def engine(request: pytest.FixtureRequest) -> str:
    return str(request.param)


@pytest.fixture(scope="module")
def make_store(
    engine: str, request: pytest.FixtureRequest, tmp_path_factory: pytest.TempPathFactory
) -> MakeStore:
    if engine == "keep":
        return lambda: str(tmp_path_factory.mktemp("store") / "house")
    server: Postgres = request.getfixturevalue("postgres")
    return server.store


@pytest.fixture
def make(make_store: MakeStore, tmp_path: Path) -> Iterator[Make]:
    """Makes services, which end with the test."""
    made: list[Service] = []

    def new(store: str | None = None, folder: Path | None = None, **changes: Any) -> Service:
        place = folder or tmp_path / uuid.uuid4().hex
        place.mkdir(exist_ok=True)
        service = Service(place, store or make_store(), **changes)
        made.append(service)
        return service

    yield new
    for service in made:
        if service.thread.is_alive():
            service.stop()


@pytest.fixture
def service(make: Make) -> Service:
    """A service over an empty house."""
    return make()
