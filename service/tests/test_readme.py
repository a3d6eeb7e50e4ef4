"""The README's commands do what it says when they are followed literally."""

from __future__ import annotations

import json
import os
import re
import subprocess
from pathlib import Path

from clear_service.senders import METRICS, REGISTER

from conftest import SERVICE, free_port

FENCE = re.compile(r"^```(\w*)\n(.*?)^```$", re.MULTILINE | re.DOTALL)


def test_the_readme(tmp_path: Path) -> None:
    port = str(free_port())
    blocks = FENCE.findall((SERVICE / "README.md").read_text(encoding="utf-8").replace(":8080", f":{port}"))
    script = "".join(text for kind, text in blocks if kind == "sh" and "service/setup" not in text)
    for name in ("service", "examples"):
        (tmp_path / name).symlink_to(SERVICE if name == "service" else SERVICE.parent / name)
    environment = {**os.environ, "CLEAR_PORT": port}
    done = subprocess.run(
        ["sh", "-e"], input=script, cwd=tmp_path, env=environment, capture_output=True, text=True, timeout=900
    )
    said = done.stdout + done.stderr
    assert done.returncode == 0, said
    for kind, text in blocks:
        if not kind:
            assert text in done.stdout, said
    log = (tmp_path / "house.log").read_text().splitlines()
    assert {json.loads(each)["platform"] for each in log} == {
        None,
        "cpo",
        "emp",
        "hub",
        METRICS,
        REGISTER + "emp",
    }
