"""The files of service/deploy: nginx with TLS before a service, the unit of systemd, the image."""

from __future__ import annotations

import os
import re
import shutil
import signal
import subprocess
import time
from collections.abc import Iterator
from pathlib import Path
from urllib.parse import urlsplit

import httpx
import pytest
from clear_service.senders import REGISTER, TokenFile

from conftest import SERVICE, Service, free_port, wait_until
from examples import TARIFF, TOKEN, cdr, line
from ocpi_peer import OcpiPeer
from started import Start, start

__all__ = ["start"]

DEPLOY = SERVICE / "deploy"
EXPOSURE = line("exposure", provider="NL/MSA", currency="EUR")


class Proxy:
    """nginx by the example, with a certificate of its own, on other ports and before another service."""

    def __init__(self, folder: Path, service: Service) -> None:
        self.plain, self.port = free_port(), free_port()
        key, certificate = folder / "clear.key", folder / "clear.crt"
        words = ["-newkey", "rsa:2048", "-nodes", "-days", "2", "-subj", "/CN=clear.example"]
        made = ["openssl", "req", "-x509", *words, "-keyout", str(key), "-out", str(certificate)]
        subprocess.run(made, check=True, capture_output=True)
        text = (DEPLOY / "nginx.conf").read_text()
        for old, new in {
            "server 127.0.0.1:8080;": f"server 127.0.0.1:{service.settings.port};",
            "listen 80;": f"listen 127.0.0.1:{self.plain};",
            "listen [::]:80;": "",
            "listen 443 ssl http2;": f"listen 127.0.0.1:{self.port} ssl http2;",
            "listen [::]:443 ssl http2;": "",
            "/etc/nginx/clear.crt": str(certificate),
            "/etc/nginx/clear.key": str(key),
        }.items():
            assert text.count(old) == 1, old
            text = text.replace(old, new)
        (folder / "site").write_text(text)
        temporary = "".join(
            f"{name}_temp_path {folder}/{name};\n"
            for name in ("client_body", "proxy", "fastcgi", "uwsgi", "scgi")
        )
        log = f"access_log {folder}/access.log; error_log {folder}/error.log;\n"
        http = f"http {{\n{temporary}{log}include {folder}/site;\n}}\n"
        user = "user root;\n" if Path("/proc/self").owner() == "root" else ""
        (folder / "nginx.conf").write_text(f"{user}daemon off;\npid {folder}/pid;\nevents {{}}\n{http}")
        nginx = shutil.which("nginx") or "/usr/sbin/nginx"
        self.words = [
            nginx,
            "-p",
            str(folder),
            "-c",
            str(folder / "nginx.conf"),
            "-e",
            str(folder / "error.log"),
        ]
        subprocess.run([*self.words, "-t"], check=True, capture_output=True)
        self.process = subprocess.Popen(self.words)
        self.folder = folder
        self.url = f"https://127.0.0.1:{self.port}"
        self.client = httpx.Client(base_url=self.url, verify=False, timeout=60)
        assert wait_until(lambda: self.answers("/"))

    def answers(self, path: str) -> bool:
        try:
            return self.client.get(path).status_code == 200
        except httpx.HTTPError:
            return False

    def stop(self) -> None:
        self.client.close()
        self.process.terminate()
        self.process.wait(20)


@pytest.fixture(scope="module")
def behind(tmp_path_factory: pytest.TempPathFactory) -> Iterator[tuple[Proxy, Service]]:
    if not shutil.which("nginx") and not Path("/usr/sbin/nginx").exists():
        pytest.skip("nginx is not installed")
    service = Service(tmp_path_factory.mktemp("service"), str(tmp_path_factory.mktemp("store") / "house"))
    proxy = Proxy(tmp_path_factory.mktemp("nginx"), service)
    yield proxy, service
    proxy.stop()
    service.stop()


def test_requests_through_nginx(behind: tuple[Proxy, Service]) -> None:
    proxy, service = behind
    headers = {"Authorization": f"Token {service.tokens['emp']}", "X-Request-ID": "r-1"}
    put = proxy.client.put("/ocpi/2.2.1/tokens/NL/MSA/U1", json=TOKEN, headers=headers)
    assert put.status_code == 200 and put.headers["x-request-id"] == "r-1"
    assert put.headers["strict-transport-security"] == "max-age=31536000"
    body = "\n".join([EXPOSURE] * 3).encode()
    answers = proxy.client.post("/clearing/lines", content=body, headers=headers)
    assert answers.content.count(b'"answer":"Exposure"') == 3
    assert proxy.client.get("/clearing/exposure").status_code == 401
    page = proxy.client.get("/")
    assert page.headers["content-security-policy"].startswith("default-src 'none'")


def test_a_large_body_through_nginx(behind: tuple[Proxy, Service]) -> None:
    proxy, service = behind
    headers = {"Authorization": f"Token {service.tokens['emp']}"}
    lines = (EXPOSURE + " " * 1_600 + "\n").encode() * 9_000
    answers = proxy.client.post("/clearing/lines", content=lines, headers=headers)
    assert answers.status_code == 200 and answers.content.count(b"\n") == 9_000
    refused = proxy.client.post("/clearing/lines", content=b" " * (17 << 20), headers=headers)
    assert refused.status_code == 413


def test_curl_and_plain_http(behind: tuple[Proxy, Service]) -> None:
    proxy, service = behind
    words = [
        "curl",
        "-sk",
        "-H",
        f"Authorization: Token {service.tokens['hub']}",
        f"{proxy.url}/clearing/sender",
    ]
    if shutil.which("curl"):
        assert b'"platform":"hub"' in subprocess.run(words, capture_output=True, check=True).stdout
    plain = httpx.get(f"http://127.0.0.1:{proxy.plain}/clearing/sender?x=1")
    assert plain.status_code == 301
    assert plain.headers["location"] == "https://127.0.0.1/clearing/sender?x=1"
    assert proxy.client.get("/ready").status_code == 200
    log = proxy.folder / "access.log"
    assert wait_until(lambda: "/ready" in log.read_text())
    assert "/clearing/sender" in log.read_text()
    assert not any(token in log.read_text() for token in service.tokens.values())


def test_a_stopped_service_behind_nginx(behind: tuple[Proxy, Service]) -> None:
    proxy, service = behind
    service.stop()
    headers = {"Authorization": f"Token {service.tokens['emp']}"}
    assert proxy.client.post("/clearing/lines", content=EXPOSURE, headers=headers).status_code == 502
    service.start()
    assert proxy.client.post("/clearing/lines", content=EXPOSURE, headers=headers).status_code == 200


def test_the_unit(tmp_path: Path) -> None:
    """systemd takes the unit, with this repository in place of /opt/clear, and rates it as little exposed."""
    if not shutil.which("systemd-analyze"):
        pytest.skip("systemd-analyze is not installed")
    text = (DEPLOY / "clear.service").read_text()
    assert "KillMode=mixed\n" in text and "Restart=on-failure\n" in text
    unit = tmp_path / "clear.service"
    unit.write_text(text.replace("/opt/clear", str(SERVICE.parent)))
    verified = subprocess.run(["systemd-analyze", "verify", str(unit)], capture_output=True, text=True)
    assert (verified.returncode, verified.stderr) == (0, "")
    words = ["systemd-analyze", "security", "--offline=true", "--threshold=15", str(unit)]
    rated = subprocess.run(words, capture_output=True, text=True)
    assert rated.returncode == 0, rated.stdout[-500:]


DENIED = """
import mmap, os
def denied(call, *words):
    try:
        call(*words)
    except PermissionError:
        return True
    return False
print(denied(mmap.mmap, -1, 4096, mmap.MAP_PRIVATE, 7), denied(os.sched_setaffinity, 0, {0}), denied(os.chroot, "/"))
"""


def test_the_service_under_the_filters_of_the_unit(start: Start, tmp_path: Path) -> None:
    """The service, the program that answers, and the programs of the reports do all their work under the unit's filters."""
    pytest.importorskip("seccomp")
    if not shutil.which("systemd-analyze"):
        pytest.skip("systemd-analyze is not installed")
    before = ["/usr/bin/python3", str(SERVICE / "tests" / "confined.py")]
    words = [*before, "/usr/bin/python3", "-c", DENIED]
    assert subprocess.run(words, capture_output=True, check=True).stdout == b"True True True\n"

    peer = OcpiPeer("CPO", "NL", "CPA", "cpo")
    (tmp_path / "one").mkdir()
    token_a = TokenFile(str(tmp_path / "one" / "tokens")).add(REGISTER + "cpo")
    service = start("one", tmp_path / "house", before=before, peer_hosts=urlsplit(peer.url).netloc)
    assert service.is_ready()
    peer.register(f"http://127.0.0.1:{service.port}/ocpi/versions", token_a)
    assert service.send("emp", line("put_token", token=TOKEN)).status_code == 200
    service.send("cpo", line("put_tariff", tariff=TARIFF), line("post", cdr=cdr("S1")))
    service.send("hub", line("close", period=0))
    for path in (
        "balances",
        "exposure",
        "periods",
        "statements/0/NL-CPA/cdrs.csv",
        "cdrs?operator=NL/CPA&id=S1",
    ):
        assert service.get("hub", f"/clearing/{path}").status_code == 200
    for path in ("/", "/page/page.js", "/openapi.json"):
        assert service.status(path) == 200
    assert service.get("metrics", "/metrics").status_code == 200
    os.kill(service.house(), signal.SIGKILL)
    assert wait_until(lambda: service.client.get("/health").json()["starts"] == 2)
    assert service.is_ready()
    assert service.get("hub", "/clearing/balances").json()[0]["owed"] == "5.0000"
    assert wait_until(lambda: peer.names("tokens") == ["U1"]) and peer.faults == []
    peer.close()
    assert (tmp_path / "house" / "service-records").stat().st_mode & 0o077 == 0
    assert (tmp_path / "house" / "requests").stat().st_mode & 0o077 == 0
    assert service.stop() in (0, -signal.SIGTERM)


def test_the_image_names_files_that_are_there() -> None:
    """The files that the Dockerfile copies are there; test_machine.py builds the image."""
    steps = (DEPLOY / "Dockerfile").read_text()
    copied = [word for row in re.findall(r"^COPY (.*)$", steps, re.MULTILINE) for word in row.split()[:-1]]
    assert len(copied) == 6
    ignored = (DEPLOY / "Dockerfile.dockerignore").read_text().splitlines()
    for path in copied:
        assert (SERVICE.parent / path).exists(), path
        assert f"!{path}" in ignored
    assert re.search(r"^USER clear$", steps, re.MULTILINE)
