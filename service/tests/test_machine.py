"""The service on a Debian of its own: as a unit of a running systemd, and as an image, each as service/deploy/README.md says.

The tests need root, a mirror of Debian, and the packages debootstrap and buildah, which `service/setup --tests` leaves out.
"""

from __future__ import annotations

import json
import os
import re
import shutil
import signal
import subprocess
from collections.abc import Iterator, Sequence
from pathlib import Path

import pytest

from conftest import SERVICE, free_port, wait_until
from examples import TOKEN, line

pytestmark = pytest.mark.long

TOP = SERVICE.parent
DEPLOY = SERVICE / "deploy"
PROGRAM = os.environ.get("CLEAR", str(TOP / "release/clear"))
MIRROR = "http://deb.debian.org/debian"
SOURCES = f"deb {MIRROR} bookworm main\ndeb {MIRROR}-security bookworm-security main\n"
PUT = line("put_token", token=TOKEN)
POST = "curl -s -H 'Authorization: Token {}' -X POST --data-binary @- http://127.0.0.1:{}/clearing/lines"

# What becomes the first process of a system in the folder {0}: it has its own /proc, /dev, /run and /tmp, and nothing else of this machine.
BOOT = """
mount --make-rprivate / && mount --bind {0} {0} && mount -t proc proc {0}/proc && mount --rbind /sys {0}/sys
for folder in run tmp dev; do mount -t tmpfs -o mode=755 tmpfs {0}/$folder; done
for device in null zero full random urandom tty; do touch {0}/dev/$device; mount --bind /dev/$device {0}/dev/$device; done
mkdir {0}/dev/pts {0}/dev/shm && mount -t devpts devpts {0}/dev/pts && mount -t tmpfs tmpfs {0}/dev/shm
ln -s /proc/self/fd {0}/dev/fd && ln -s pts/ptmx {0}/dev/ptmx && mkdir -p {0}/outside && cd {0} && pivot_root . outside && umount -l /outside
container=other exec /sbin/init
"""


def output(words: Sequence[str], given: str = "", seconds: float = 600) -> str:
    """What the program prints; it has to end with status 0."""
    ran = subprocess.run(words, input=given, capture_output=True, text=True, timeout=seconds)
    assert ran.returncode == 0, f"{words}: {ran.stdout[-1500:]}{ran.stderr[-1500:]}"
    return str(ran.stdout)


def block(heading: str, part: int) -> str:
    """A block of commands under a heading of the README, by its number."""
    section = (DEPLOY / "README.md").read_text().split(f"## {heading}\n")[1].split("\n## ")[0]
    return str(re.findall(r"```sh\n(.*?)```", section, re.DOTALL)[part])


def copy_release(to: Path) -> None:
    """The files of a release that the service needs, with the program that is tested."""
    for folder in ("service", "examples"):
        shutil.copytree(TOP / folder, to / folder, ignore=shutil.ignore_patterns("__pycache__"))
    (to / "release").mkdir()
    shutil.copy2(PROGRAM, to / "release/clear")


@pytest.fixture(scope="module")
def debian(tmp_path_factory: pytest.TempPathFactory) -> Path:
    """A folder with Debian 12."""
    if os.geteuid() != 0 or not shutil.which("debootstrap"):
        pytest.skip("this needs root and debootstrap")
    folder = tmp_path_factory.mktemp("machine") / "debian"
    made = subprocess.run(
        ["debootstrap", "--variant=minbase", "bookworm", folder, MIRROR], capture_output=True
    )
    if made.returncode != 0:
        pytest.skip("no mirror of Debian answers")
    (folder / "etc/apt/sources.list").write_text(SOURCES)
    return folder


class Image:
    """The image by the Dockerfile, in a container that stands still."""

    def __init__(self, debian: Path, folder: Path) -> None:
        if not shutil.which("buildah"):
            pytest.skip("buildah is not installed")
        places = ["--root", str(folder / "storage"), "--runroot", str(folder / "run")]
        self.buildah = ["buildah", *places, "--storage-driver", "vfs"]
        base = self.tell("from", "scratch")
        self.tell("add", base, str(debian), "/")
        self.tell("commit", base, "docker.io/library/debian:bookworm-slim")
        copy_release(folder / "context")
        build = ["bud", "--isolation", "chroot", "--pull-never", "--format", "docker", "-t", "clear"]
        self.tell(*build, "-f", str(DEPLOY / "Dockerfile"), str(folder / "context"))
        self.container = self.tell("from", "--pull-never", "clear")
        self.config = json.loads(output([*self.buildah, "inspect", "--type", "image", "clear"]))["Docker"][
            "config"
        ]

    def tell(self, *words: str) -> str:
        """The last line that buildah prints."""
        return (output([*self.buildah, *words]).split("\n")[:-1] or [""])[-1]

    def words(self, *given: str) -> list[str]:
        """The words that run a program in the container."""
        return [*self.buildah, "run", "--isolation", "chroot", *given[:-1], self.container, "--", given[-1]]


def test_the_image(debian: Path, tmp_path: Path) -> None:
    """The image is built, its service starts as it says, answers, is healthy by its own check, and keeps its store."""
    image = Image(debian, tmp_path)
    assert image.config["User"] == "clear" and image.config["StopSignal"] == "SIGTERM"
    port = str(free_port())
    etc = tmp_path / "etc"
    etc.mkdir()
    shutil.copy2(TOP / "examples/config.json", etc / "config.json")
    mounted = ["--volume", f"{etc}:/etc/clear:ro", "--env", f"CLEAR_PORT={port}"]
    start = [*image.config["Entrypoint"], *image.config["Cmd"]]
    token = output([*image.words(*mounted, start[0].replace("start", "tokens")), "add", "emp"]).split()[-1]
    output([*image.words(*mounted, "/opt/clear/clear"), "keep", *start[1:]])
    check = image.config["Healthcheck"]["Test"]
    for events in (0, 1):
        service = subprocess.Popen([*image.words(*mounted, start[0]), *start[1:]])
        healthy = [*image.words(*mounted, check[1]), *(word.replace("8080", port) for word in check[2:])]
        assert wait_until(lambda: subprocess.run(healthy, capture_output=True).returncode == 0)
        health = json.loads(output(["curl", "-s", f"http://127.0.0.1:{port}/health"]))
        assert health["ready"] and health["events"] == events
        answer = output(["sh", "-c", POST.format(token, port)], PUT)
        assert answer.startswith('{"status_code":1000,"answer":"')
        inside = output(["pgrep", "-f", f"clear_service {start[1]}"]).split()[0]
        os.kill(int(inside), signal.SIGTERM)
        assert service.wait(30) in (0, -signal.SIGTERM, 128 + signal.SIGTERM)


class System:
    """A running systemd in a folder, with a network of its own."""

    def __init__(self, folder: Path) -> None:
        names = ("mount", "pid", "uts", "ipc", "cgroup", "net")
        spaces = [f"--{name}" for name in names]
        words = ["unshare", "--fork", "--kill-child", *spaces, "sh", "-ec", BOOT.format(folder)]
        self.outer = subprocess.Popen(words, stdin=subprocess.DEVNULL, start_new_session=True)
        assert wait_until(self._children)
        self.enter = ["nsenter", "-t", self._children()[0], *spaces, "--root", "--wd"]
        running = [*self.enter, "systemctl", "is-system-running", "--wait"]
        assert wait_until(lambda: b"running" in subprocess.run(running, capture_output=True).stdout)

    def _children(self) -> list[str]:
        return Path(f"/proc/{self.outer.pid}/task/{self.outer.pid}/children").read_text().split()

    def run(self, script: str, given: str = "") -> str:
        """What a script prints in the system."""
        return output([*self.enter, "sh", "-ec", script], given)

    def health(self) -> dict[str, object]:
        """What /health says of the service; nothing if it does not answer."""
        said = subprocess.run(
            [*self.enter, "curl", "-s", "http://127.0.0.1:8080/health"], capture_output=True, text=True
        )
        return dict(json.loads(said.stdout)) if said.returncode == 0 else {}

    def is_ready(self) -> bool:
        """Whether the house answers."""
        return wait_until(lambda: self.health().get("ready"))

    def stop(self) -> None:
        """Ends all processes of the system."""
        os.kill(self.outer.pid, signal.SIGKILL)
        self.outer.wait(20)


@pytest.fixture
def system(debian: Path) -> Iterator[System]:
    """The Debian, started, with the release in /opt/clear and the packages of the service."""
    copy_release(debian / "opt/clear")
    shutil.copy2("/etc/resolv.conf", debian / "etc/resolv.conf")
    install = (
        "apt-get -q update && apt-get -q install -y --no-install-recommends systemd systemd-sysv dbus curl"
    )
    output(["chroot", str(debian), "sh", "-c", f"{install} && /opt/clear/service/setup"])
    started = System(debian)
    yield started
    started.stop()


def test_the_unit_in_a_running_system(system: System) -> None:
    """The unit starts, is confined, comes back after a kill with what it kept, and stops in good order."""
    system.run(block("A machine with systemd", 0))
    assert system.is_ready()
    add = block("A machine with systemd", 1).replace("add hub", "add emp")
    token = system.run(add).split()[-1]
    assert wait_until(lambda: '"Stored"' in system.run(POST.format(token, 8080), PUT))

    pid = system.run("systemctl show -p MainPID --value clear").strip()
    status = system.run(f"cat /proc/{pid}/status")
    for row in ("CapEff:\t0000000000000000", "CapBnd:\t0000000000000000", "NoNewPrivs:\t1", "Seccomp:\t2"):
        assert row in status
    assert system.run("stat -c %a /var/lib/clear/house/requests") == "600\n"

    system.run(f"kill -9 {pid}")
    assert wait_until(lambda: system.run("systemctl show -p NRestarts --value clear") == "1\n")
    assert system.is_ready() and system.health()["events"] == 1
    system.run("systemctl stop clear")
    assert system.run("systemctl show -p Result --value clear") == "success\n"
    assert system.health() == {}
    system.run("systemctl start clear")
    assert system.is_ready() and system.health()["events"] == 1
