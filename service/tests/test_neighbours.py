"""One hostile token beside a platform that sends 100 authorisations a second: nothing is refused to it, and it hardly waits.

Of a hundred of its requests 99 take less than 50 ms. On a machine that is busy otherwise the bound is four times what they take alone.
"""

from __future__ import annotations

import json
import os
import subprocess
import sys
import time
from pathlib import Path
from typing import Any

import pytest
from clear_service.senders import TokenFile

from conftest import MakeStore
from examples import CONFIGURATION, TOKEN, changed, line, tariff
from neighbour import A_SECOND, HOSTILE
from started import Start, start

__all__ = ["start"]
SECONDS = int(os.environ.get("CLEAR_TEST_NEIGHBOUR_SECONDS", "45"))
MOST_MS = 50.0
MOST_BYTES = 600 * (1 << 20)
PROGRAM = Path(__file__).with_name("neighbour.py")


def run(kind: str, port: int, token: str, seconds: float) -> subprocess.Popen[str]:
    words = [sys.executable, str(PROGRAM), kind, str(port), token, str(seconds)]
    return subprocess.Popen(words, stdout=subprocess.PIPE, text=True)


def result(process: subprocess.Popen[str]) -> dict[str, Any]:
    said, _ = process.communicate(timeout=SECONDS + 120)
    assert process.returncode == 0
    found: dict[str, Any] = json.loads(said)
    return found


def p99(took: list[float]) -> float:
    """What 99 of a hundred take at most."""
    return sorted(took)[len(took) * 99 // 100]


def peak_of(pid: int) -> int:
    """The most memory that the process has had."""
    (row,) = [
        each for each in Path(f"/proc/{pid}/status").read_text().splitlines() if each.startswith("VmHWM:")
    ]
    return int(row.split()[1]) * 1024


@pytest.mark.parametrize("kind", HOSTILE)
def test_a_hostile_neighbour(start: Start, make_store: MakeStore, tmp_path: Path, kind: str) -> None:
    limits = [{"currency": "EUR", "limit": 10**15, "hold": 1}]
    made = changed(CONFIGURATION, providers=[{"party": "NL/MSA", "limits": limits}])
    service = start("one", make_store(), config=json.dumps(made), requests_a_second="2000")
    assert service.is_ready()
    hostile = TokenFile(str(service.folder / "tokens")).add("cpb")
    time.sleep(1.1)
    service.send("emp", line("put_token", token=TOKEN))
    service.send("cpo", line("put_tariff", tariff=tariff()))
    ask = line("authorize", operator="NL/CPA", provider="NL/MSA", uid="U1", currency="EUR")
    for _ in range(5):
        assert service.send("cpo", *[ask] * 2_000).status_code == 200
    port = service.port
    alone = result(run("platform", port, service.tokens["cpo"], 3))
    other = run(kind, port, hostile, SECONDS)
    time.sleep(1)
    platform = result(run("platform", port, service.tokens["cpo"], SECONDS - 2))
    neighbour = result(other)
    assert platform["statuses"].keys() == {"200"} and len(platform["took"]) >= (SECONDS - 2) * A_SECOND * 0.99
    bound = max(MOST_MS, 4 * p99(alone["took"]))
    assert p99(platform["took"]) < bound, (max(platform["took"]), neighbour["statuses"])
    assert kind == "readers" or sum(neighbour["statuses"].values()) > 0
    assert peak_of(service.process.pid) < MOST_BYTES
    assert service.status("/ready") == 200
