"""Nothing begins by itself, and a store that is gone or another one is noticed."""

from __future__ import annotations

import json
import os
import re
import shutil
import signal
import subprocess
import time
from pathlib import Path

import httpx
import pytest

from conftest import SERVICE, Make, MakeStore, free_port, wait_until
from examples import AUTHORIZE, CONFIG, CONFIGURATION, TOKEN, TOKENS, changed, line
from started import PROGRAM, Start, start

__all__ = ["start"]
NOTICED = 2.0  # seconds within which a store that is gone makes the service not ready


def run(folder: Path, *words: str) -> subprocess.CompletedProcess[str]:
    """A start that is expected to end by itself."""
    given = {**os.environ, "CLEAR_PORT": str(free_port()), "CLEAR_TOKENS": str(folder / "tokens")}
    command = [str(SERVICE / "start"), *words]
    return subprocess.run(command, env=given, capture_output=True, text=True, timeout=600)


def config_in(folder: Path, text: str = CONFIG) -> str:
    path = folder / "config.json"
    path.write_text(text)
    return str(path)


@pytest.mark.parametrize("is_there", [False, True])
def test_a_store_that_is_missing_or_empty(tmp_path: Path, is_there: bool) -> None:
    store = tmp_path / "house"
    if is_there:
        store.mkdir()
    done = run(tmp_path, config_in(tmp_path), str(store))
    assert done.returncode == 2 and "--new" in done.stderr
    assert store.exists() == is_there and not (is_there and any(store.iterdir()))


def test_a_new_store_where_one_is(tmp_path: Path, start: Start) -> None:
    service = start("one", tmp_path / "house")
    assert service.is_ready()
    service.stop()
    before = (tmp_path / "house" / "requests").read_bytes()
    done = run(tmp_path, "--new", config_in(tmp_path), str(tmp_path / "house"))
    assert done.returncode == 2 and "leave `--new` out" in done.stderr
    assert (tmp_path / "house" / "requests").read_bytes() == before


@pytest.mark.parametrize("text", [None, "", "{", json.dumps(changed(CONFIGURATION, currencies=["E"]))])
def test_a_configuration_that_is_bad_or_missing(tmp_path: Path, start: Start, text: str | None) -> None:
    service = start("one", tmp_path / "house")
    assert service.is_ready()
    service.stop()
    config = str(tmp_path / "none.json") if text is None else config_in(tmp_path, text)
    for words in ([config, str(tmp_path / "house")], ["--new", config, str(tmp_path / "other")]):
        done = run(tmp_path, *words)
        assert done.returncode == 2 and "clear: " in done.stderr, done.stderr
    assert not (tmp_path / "other").exists()


def test_a_configuration_with_a_warning(tmp_path: Path, start: Start) -> None:
    limits = [{"currency": "SEK", "limit": 1, "hold": 1}]
    made = changed(
        CONFIGURATION, currencies=["EUR", "SEK"], providers=[{"party": "NL/MSA", "limits": limits}]
    )
    assert start("one", tmp_path / "house", config=json.dumps({**made, "unknown": 1})).is_ready()


def test_a_database_that_is_empty(tmp_path: Path, make_store: MakeStore, engine: str) -> None:
    if engine != "postgresql":
        pytest.skip("of the engine over PostgreSQL")
    done = run(tmp_path, config_in(tmp_path), make_store())
    assert done.returncode == 2 and "--new" in done.stderr


def test_a_store_that_check_refuses(tmp_path: Path, start: Start) -> None:
    """The program's `keep` is not run, and /health says why."""
    program = tmp_path / "clear"
    program.write_text(
        f'#!/bin/sh\necho "$1" >> {tmp_path}/ran\n[ "$1" != check ] || {{ echo "clear: refused" >&2; exit 1; }}\n'
        f'exec {PROGRAM} "$@"\n'
    )
    program.chmod(0o755)
    service = start("one", tmp_path / "house", str(program))
    assert wait_until(lambda: service.status("/health") == 200)
    assert wait_until(lambda: "clear: refused" in (service.client.get("/health").json()["last_end"] or ""))
    assert service.status("/ready") == 503
    assert service.send("emp", line("exposure", provider="NL/MSA", currency="EUR")).status_code == 503
    assert "keep" not in (tmp_path / "ran").read_text().split()


def flipped(data: bytes, place: int, bit: int) -> bytes:
    """The bytes with another bit at this place."""
    return data[:place] + bytes([data[place] ^ 1 << bit]) + data[place + 1 :]


@pytest.mark.parametrize("part", ["mark", "header", "line", "first line", "last mark"])
def test_a_damaged_store(start: Start, tmp_path: Path, part: str) -> None:
    """One bit is another one. The service does not run `keep`, says where the store is damaged, and leaves it as it is."""
    store = tmp_path / "house"
    service = start("one", store)
    assert service.is_ready()
    for _ in range(3):
        assert service.send("emp", line("put_token", token=TOKEN)).status_code == 200
    assert service.stop() in (0, -signal.SIGTERM)
    whole = (store / "requests").read_bytes()
    batches = [found.start() for found in re.finditer(rb"kept [0-9]{8} ", whole)]
    assert len(batches) == 4
    place, batch = {
        "mark": (batches[2] + 1, batches[2]),
        "header": (batches[2] + 40, batches[2]),
        "line": (batches[2] + 120, batches[2]),
        "first line": (batches[0] + 100, 0),
        "last mark": (len(whole) - 1, len(whole) - 4),
    }[part]
    damaged = flipped(whole, place, 2)
    (store / "requests").write_bytes(damaged)
    again = start("two", store)
    said = f"clear: {store}: the store is damaged at byte {batch}"
    assert wait_until(lambda: again.status("/health") == 200)
    assert wait_until(lambda: again.client.get("/health").json()["last_end"] == said)
    health = again.client.get("/health").json()
    assert (health["status"], health["starts"], health["details"]) == ("down", 0, {})
    assert again.status("/ready") == 503
    assert again.send("emp", line("exposure", provider="NL/MSA", currency="EUR")).status_code == 503
    assert (store / "requests").read_bytes() == damaged and not (store / "torn").exists()
    (store / "requests").write_bytes(whole)
    assert again.is_ready()


def test_a_store_of_format_1(start: Start, tmp_path: Path) -> None:
    """The service ends with the program's message, and serves the copy that `clear upgrade` makes."""
    store = tmp_path / "house"
    service = start("one", store)
    assert service.is_ready()
    assert service.send("emp", line("put_token", token=TOKEN)).status_code == 200
    head = service.get("emp", "/clearing/receipt").json()["head"]
    assert service.stop() in (0, -signal.SIGTERM)
    lines = re.sub(rb"kept [0-9]{8} [0-9a-f]{64}\n", b"", (store / "requests").read_bytes())
    first = lines.removesuffix(b"----") + b"-"
    (store / "requests").write_bytes(first)
    done = run(tmp_path, config_in(tmp_path), str(store))
    assert (done.returncode, done.stderr) == (
        2,
        f"service: clear: {store}: a store of format 1; clear upgrade makes a copy of this format\n",
    )
    assert (store / "requests").read_bytes() == first
    subprocess.run([PROGRAM, "upgrade", str(store), str(tmp_path / "new")], check=True, capture_output=True)
    again = start("two", tmp_path / "new")
    assert again.is_ready()
    found = again.get("emp", "/clearing/receipt").json()
    assert (found["kept"], found["head"]) == (1, head)


@pytest.mark.parametrize("what", ["deleted", "moved", "replaced", "shortened"])
def test_a_store_that_is_gone_or_another(make: Make, make_store: MakeStore, engine: str, what: str) -> None:
    if engine != "keep":
        pytest.skip("of the engine keep")
    store = Path(make_store())
    service = make(str(store), longest_pause=1)
    assert service.send("emp", "PUT", TOKENS, json=TOKEN).status_code == 200
    other = store.with_name("other")
    shutil.copytree(store, other)
    match what:
        case "deleted":
            shutil.rmtree(store)
        case "moved":
            store.rename(store.with_name("away"))
        case "replaced":
            store.rename(store.with_name("away"))
            other.rename(store)
        case "shortened":
            os.truncate(store / "requests", 100)
    began = time.monotonic()
    while time.monotonic() - began < 3 * NOTICED:
        answer = service.send("cpo", "POST", AUTHORIZE)
        assert answer.status_code == 503, answer.text
        time.sleep(0.1)
    assert service.get(None, "/ready").status_code == 503
    assert service.health()["status"] == "down"
    if what == "moved":
        store.with_name("away").rename(store)
        assert service.is_ready()


def slow_program(folder: Path) -> str:
    """The program, whose `keep` greets, and replays when the folder has the file `go`."""
    path = folder / "slow"
    path.write_text(
        f"""#!/usr/bin/python3
import os, subprocess, sys, time
words = ["{PROGRAM}", *sys.argv[1:]]
if sys.argv[1] != "keep" or "--from" not in sys.argv:
    sys.exit(subprocess.run(words).returncode)
with subprocess.Popen(words, stdout=subprocess.PIPE) as program:
    greeting = program.stdout.readline()
    sys.stdout.buffer.write(greeting)
    sys.stdout.flush()
    if b":0" not in greeting:
        print('{{"progress":"answered","lines":1,"of_lines":2,"bytes":9,"of_bytes":18}}', file=sys.stderr, flush=True)
    while b":0" not in greeting and not os.path.exists("{folder / 'go'}"):
        time.sleep(0.05)
    for line in program.stdout:
        sys.stdout.buffer.write(line)
        sys.stdout.flush()
"""
    )
    path.chmod(0o755)
    return str(path)


def test_a_start_does_not_end_its_own_replay(make: Make, engine: str, tmp_path: Path) -> None:
    """A program that replays for longer than an answer may take is not killed; until then /health says how far it is."""
    if engine != "keep":
        pytest.skip("of the engine keep")
    service = make(program=slow_program(tmp_path), answer_seconds=2)
    for _ in range(2):
        assert service.send("emp", "PUT", TOKENS, json=TOKEN).status_code == 200
    starts = service.health()["starts"]
    os.kill(service.health()["details"]["pid"], signal.SIGKILL)
    assert wait_until(lambda: service.health()["starts"] == starts + 1)
    assert service.send("cpo", "POST", AUTHORIZE).status_code == 503
    assert wait_until(lambda: service.health()["replayed"] == 1)
    time.sleep(4)
    health = service.health()
    assert (health["ready"], health["replayed"], health["kept"]) == (False, 1, 2)
    (tmp_path / "go").touch()
    assert service.is_ready()
    health = service.health()
    assert (health["starts"], health["replayed"], health["kept"]) == (starts + 1, 2, 2)
    assert service.send("cpo", "POST", AUTHORIZE).json()["data"]["allowed"] == "ALLOWED"


def test_a_program_that_is_silent_is_not_ready(make: Make, engine: str) -> None:
    service = make()
    details = service.health()["details"]
    pid = details.get("pid") or details["worker"]
    os.kill(pid, signal.SIGSTOP)
    try:
        with pytest.raises(httpx.TimeoutException):
            service.send("emp", "PUT", TOKENS, json=TOKEN, timeout=3.5)
        assert wait_until(lambda: service.get(None, "/ready").status_code == 503, 30)
    finally:
        os.kill(pid, signal.SIGCONT)
    assert service.is_ready()


def test_an_escape_does_not_switch_the_watchdog_off(make: Make, engine: str) -> None:
    service = make(answer_seconds=2, longest_pause=1)
    details = service.health()["details"]
    name = "pid" if engine == "keep" else "worker"
    os.kill(details[name], signal.SIGSTOP)
    body = '{"do":"find","x":"\\u0061","operator":"NL/CPA","id":"configure"}'
    assert service.send("cpo", "POST", "/clearing/lines", content=body.encode()).status_code == 503
    assert wait_until(lambda: service.health()["details"].get(name) not in (None, details[name]))
    assert service.is_ready()


def test_a_configuration_that_is_not_in_force(
    make: Make, tmp_path: Path, caplog: pytest.LogCaptureFixture
) -> None:
    service = make(folder=tmp_path)
    assert service.health()["config_differs"] == []
    service.stop()
    limits = [{"currency": "EUR", "limit": 2000000, "hold": 200000}]
    other = changed(CONFIGURATION, providers=[{"party": "NL/MSA", "limits": limits}], tolerance=5)
    (tmp_path / "config.json").write_text(json.dumps(other))
    service.start()
    assert service.health()["config_differs"] == ["tolerance", "providers[0].limits[0].limit"]
    assert "clear configure" in caplog.text and "providers[0].limits[0].limit" in caplog.text
    assert service.get("hub", "/clearing/configuration").json() == CONFIGURATION
    service.lines("hub", line("configure", configuration=other))
    assert service.health()["config_differs"] == []
    assert service.get("hub", "/clearing/configuration").json() == other
