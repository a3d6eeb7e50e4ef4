"""A service in a process of its own, as `service/start` runs it."""

from __future__ import annotations

import os
import signal
import subprocess
from collections.abc import Callable, Iterator, Sequence
from pathlib import Path
from typing import Any

import httpx
import pytest
from clear_service.senders import METRICS, TokenFile
from clear_service.settings import settings_of

from conftest import PLATFORMS, SERVICE, begin_if_new, free_port, wait_until
from examples import CONFIG

PROGRAM = settings_of("", "").program
Start = Callable[..., "Started"]


class Started:
    """A service in a process of its own, over a store in a folder."""

    def __init__(
        self,
        folder: Path,
        store: Path | str,
        program: str = PROGRAM,
        before: Sequence[str] = (),
        config: str = CONFIG,
        **settings: str,
    ) -> None:
        self.folder, self.store = folder, store
        folder.mkdir(exist_ok=True)
        (folder / "config.json").write_text(config)
        file = TokenFile(str(folder / "tokens"))
        self.tokens = {name: file.add(name) for name in PLATFORMS}
        self.tokens["metrics"] = file.add(METRICS)
        mask = os.umask(0o077)
        begin_if_new(settings_of(str(folder / "config.json"), str(store)))
        os.umask(mask)
        self.port = port = free_port()
        given = {
            "CLEAR": program,
            "CLEAR_TOKENS": str(folder / "tokens"),
            "CLEAR_PORT": str(port),
            "CLEAR_LONGEST_PAUSE": "1",
            "CLEAR_REQUESTS_A_SECOND": "100000",
            **{f"CLEAR_{name.upper()}": value for name, value in settings.items()},
        }
        words = [*before, str(SERVICE / "start"), str(folder / "config.json"), str(store)]
        with open(folder / "out", "ab") as out, open(folder / "err", "ab") as err:
            self.process = subprocess.Popen(words, env={**os.environ, **given}, stdout=out, stderr=err)
        self.client = httpx.Client(base_url=f"http://127.0.0.1:{port}", timeout=180)

    def status(self, path: str) -> int:
        try:
            return self.client.get(path).status_code
        except httpx.HTTPError:
            return 0

    def is_ready(self) -> bool:
        return wait_until(lambda: self.status("/ready") == 200)

    def send(self, platform: str, *lines: str, client: httpx.Client | None = None) -> httpx.Response:
        headers = {"Authorization": f"Token {self.tokens[platform]}"}
        body = "\n".join(lines).encode()
        return (client or self.client).post("/clearing/lines", content=body, headers=headers)

    def get(self, platform: str, path: str) -> httpx.Response:
        return self.client.get(path, headers={"Authorization": f"Token {self.tokens[platform]}"})

    def house(self) -> int:
        """The id of the house's process."""
        return int(self.client.get("/health").json()["details"]["pid"])

    def said(self) -> str:
        return (self.folder / "out").read_text() + (self.folder / "err").read_text()

    def stop(self) -> int:
        self.process.send_signal(signal.SIGTERM)
        return self.process.wait(180)


@pytest.fixture
def start(tmp_path: Path) -> Iterator[Start]:
    """Starts services, which end with the test."""
    made: list[Started] = []

    def new(name: str, store: Path | str, *words: Any, **more: Any) -> Started:
        made.append(Started(tmp_path / name, store, *words, **more))
        return made[-1]

    yield new
    for each in made:
        each.client.close()
        if each.process.poll() is None:
            each.process.kill()
            each.process.wait()
