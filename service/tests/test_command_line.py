"""The programs of the folder: their arguments, their faults, and their end at a signal."""

from __future__ import annotations

import json
import os
import signal
import subprocess
from concurrent.futures import ThreadPoolExecutor
from pathlib import Path

import httpx
import pytest

from conftest import SERVICE, Make, free_port, wait_until
from examples import CONFIG, TOKEN, TOKENS


def run(program: str, *words: str, **environment: str) -> subprocess.CompletedProcess[str]:
    given = {**os.environ, **environment}
    return subprocess.run(
        [str(SERVICE / program), *words], env=given, capture_output=True, text=True, timeout=600
    )


def test_tokens(tmp_path: Path) -> None:
    file = {"CLEAR_TOKENS": str(tmp_path / "tokens")}
    token = run("tokens", "add", "cpo", **file).stdout.strip()
    assert len(token) == 43 and token not in (tmp_path / "tokens").read_text()
    name, _, platform = run("tokens", "list", **file).stdout.split()
    assert platform == "cpo"
    assert run("tokens", "remove", name, **file).stdout == "1 removed\n"
    assert run("tokens", "list", **file).stdout == ""


def test_sixteen_tokens_at_once(tmp_path: Path) -> None:
    file = {"CLEAR_TOKENS": str(tmp_path / "tokens")}
    with ThreadPoolExecutor(16) as pool:
        done = list(pool.map(lambda number: run("tokens", "add", f"p{number}", **file), range(16)))
    assert [each.returncode for each in done] == [0] * 16
    listed = run("tokens", "list", **file).stdout.split("\n")[:-1]
    assert sorted(row.split()[-1] for row in listed) == sorted(f"p{number}" for number in range(16))


def test_a_token_of_a_platform_that_is_not_configured(make: Make) -> None:
    file = {"CLEAR_TOKENS": make().settings.tokens}
    refused = run("tokens", "add", "nobody", **file)
    assert (refused.returncode, refused.stdout) == (1, "") and "--anyway" in refused.stderr
    assert run("tokens", "add", "nobody", "--anyway", **file).returncode == 0
    assert run("tokens", "add", "CPO", **file).returncode == 0
    assert run("tokens", "add", "--metrics", **file).returncode == 0
    assert run("tokens", "register", "nobody", **file).returncode == 1


def test_tokens_that_register(make: Make) -> None:
    """Each is listed as what it is, and removed with the platform."""
    file = {"CLEAR_TOKENS": make().settings.tokens}
    before = run("tokens", "list", **file).stdout
    assert len(run("tokens", "register", "cpo", **file).stdout.strip()) == 43
    (row,) = run("tokens", "list", **file).stdout.replace(before, "").splitlines()
    assert row.endswith(" → register cpo")
    assert run("tokens", "remove", "cpo", **file).stdout == "2 removed\n"
    assert "cpo" not in run("tokens", "list", **file).stdout


def test_a_start_with_tokens_that_are_not_utf_8(tmp_path: Path) -> None:
    (tmp_path / "config.json").write_text(CONFIG)
    (tmp_path / "tokens").write_bytes(b"\xff\n")
    words = ["--new", str(tmp_path / "config.json"), str(tmp_path / "house")]
    done = run("start", *words, CLEAR_TOKENS=str(tmp_path / "tokens"), CLEAR_PORT=str(free_port()))
    assert done.returncode == 2 and "cannot read the file of tokens" in done.stderr


@pytest.mark.parametrize("party", ["HUB", "NLD/HUB", "NL/HUBS", "N!/HUB", "NL/"])
def test_a_start_with_a_party_that_is_none(tmp_path: Path, party: str) -> None:
    (tmp_path / "config.json").write_text(CONFIG)
    words = ["--new", str(tmp_path / "config.json"), str(tmp_path / "house")]
    done = run("start", *words, CLEAR_PARTY=party, CLEAR_TOKENS=str(tmp_path / "tokens"))
    assert done.returncode == 2 and "CLEAR_PARTY is no party as NL/HUB" in done.stderr


@pytest.mark.parametrize("words", [[], ["add"], ["add", ""], ["add", "x" * 37], ["add", "é"], ["none", "x"]])
def test_arguments_of_tokens(tmp_path: Path, words: list[str]) -> None:
    done = run("tokens", *words, CLEAR_TOKENS=str(tmp_path / "tokens"))
    assert (done.returncode, done.stdout) == (2, "") and done.stderr.startswith("usage: service/tokens")
    assert not (tmp_path / "tokens").exists()


@pytest.mark.parametrize(
    "program, words", [("start", []), ("start", ["a"]), ("start", ["-h", "x"]), ("worker", [])]
)
def test_arguments_of_the_others(program: str, words: list[str]) -> None:
    done = run(program, *words)
    assert (done.returncode, done.stdout) == (2, "") and done.stderr.startswith("usage: service/")


def test_a_setting_that_is_no_number() -> None:
    done = run("start", "a", "b", CLEAR_PORT="x")
    assert (done.returncode, done.stderr) == (2, "service: CLEAR_PORT is no whole number\n")


def test_a_worker_without_a_database() -> None:
    done = run("worker", "postgresql://postgres@/none?host=/nowhere")
    assert done.returncode == 1 and done.stderr.startswith("worker: the database: ")


def test_it_ends_at_a_signal(tmp_path: Path) -> None:
    (tmp_path / "config.json").write_text(CONFIG)
    port = free_port()
    environment = {**os.environ, "CLEAR_PORT": str(port), "CLEAR_TOKENS": str(tmp_path / "tokens")}
    token = run("tokens", "add", "emp", CLEAR_TOKENS=environment["CLEAR_TOKENS"]).stdout.strip()
    words = [str(SERVICE / "start"), "--new", str(tmp_path / "config.json"), str(tmp_path / "house")]
    with subprocess.Popen(words, env=environment, stdout=subprocess.DEVNULL) as service:
        try:
            url = f"http://127.0.0.1:{port}"

            def is_ready() -> bool:
                try:
                    return httpx.get(url + "/ready").status_code == 200
                except httpx.HTTPError:
                    return False

            assert wait_until(is_ready)
            response = httpx.put(url + TOKENS, json=TOKEN, headers={"Authorization": f"Token {token}"})
            assert response.status_code == 200
            service.send_signal(signal.SIGTERM)
            assert service.wait(180) in (0, -signal.SIGTERM)
        finally:
            service.kill()
    program = environment.get("CLEAR") or str(SERVICE.parent / "clear")
    checked = subprocess.run(
        [program, "check", str(tmp_path / "house")], capture_output=True, text=True, check=True
    )
    found = json.loads(checked.stdout)
    assert (found["kept"], found["batches"], found["torn"]) == (1, 2, False)
    assert Path(tmp_path / "house" / "requests").stat().st_size > 0
