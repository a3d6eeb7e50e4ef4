"""Stores of `clear keep`: a folder with a configuration, lines and stores, and a client that counts its answers."""

from __future__ import annotations

import json
import os
import random
import select
import signal
import subprocess
import time
from collections.abc import Sequence
from pathlib import Path
from typing import TypeAlias

import batches
from batches import Verdict

TOP = Path(__file__).resolve().parent.parent.parent

Ended: TypeAlias = tuple[int, bytes, str]  # status, standard output and standard error

FIRST_FORMAT = "a store of format 1; clear upgrade makes a copy of this format"


def receipt(lines: Sequence[bytes]) -> bytes:
    """What `keep` begins with and `head` prints over a store with these lines, of which the first is the record."""
    return b'{"kept":%d,"head":"%s"}\n' % (len(lines) - 1, batches.head_of(lines).encode())


def checked(found: Verdict) -> bytes:
    """What `check` prints of a store that is found to be so."""
    torn = b"true" if found.torn else b"false"
    end = b',"batches":%d,"torn":%s}\n' % (len(found.batches), torn)
    return receipt(found.lines).replace(b"}\n", end)


def told_of_cut(store: Path, found: Verdict) -> str:
    """What `keep` says before it makes this store whole."""
    told = "bytes from byte {} on were never acknowledged; they are cut off, and added to torn"
    count, at = len(found.torn), found.end + len(batches.SHUT)
    return f"clear: {store}: {count} {told.format(at)}\n" if count else ""


def store_of(lines: Sequence[bytes], record: bytes, most: int = 1000) -> bytes:
    """The file of a store with this record and these lines, in batches of at most so many."""
    parts = [list(lines[at : at + most]) for at in range(0, len(lines), most)]
    return batches.file_of([[record], *parts])


def shared_library(name: str, work: Path) -> str:
    """The path of a library of tests/faults that is preloaded."""
    library, source = work / f"{name}.so", TOP / "tests" / "faults" / f"{name}.c"
    words: list[str | Path] = ["cc", "-O1", "-shared", "-fPIC", "-o", library, source, "-ldl"]
    subprocess.run(words, check=True)
    return str(library)


class Room:
    """A folder with a configuration, lines, and stores in which they are kept."""

    def __init__(
        self,
        program: str,
        work: Path,
        config: str,
        lines: list[bytes],
        answers: str = "script",
    ) -> None:
        self.program, self.work, self.answers = program, work, answers
        self.config = self.file("config.json", config.encode("ascii"))
        self.lines = lines
        self.few = self.lines[:7]
        self.wanted = self.answered(self.lines)
        self.rng = random.Random("kept")
        self.longest = 0.15  # seconds until a kill
        self.disk = {"LD_PRELOAD": shared_library("disk", work), "DISK_OF": "/requests"}
        self.memory = {"LD_PRELOAD": shared_library("refuse", work)}

    def file(self, name: str, data: bytes) -> Path:
        """A file of this content in the folder."""
        path = self.work / name
        path.write_bytes(data)
        return path

    def words(self, store: str, *more: str) -> list[str | Path]:
        """The arguments of `keep`. A store whose configuration may have changed is gone on with under the one that it has."""
        is_open = self.answers == "stream" and self.has_begun(store)
        config = [] if is_open else [self.config]
        return [self.program, "keep", *config, self.work / store, *more]

    def answered(self, lines: list[bytes]) -> list[bytes]:
        """The answers to these lines by the command that keeps nothing."""
        words: list[str | Path] = [self.program, self.answers, self.config]
        done = subprocess.run(words, input=b"".join(lines), stdout=subprocess.PIPE, check=True)
        return done.stdout.splitlines(True)

    def keep(
        self,
        store: str,
        given: bytes,
        *more: str,
        before: tuple[str, ...] = (),
        faults: dict[str, str] | None = None,
    ) -> Ended:
        """Status, answers and standard error of `keep` over these bytes."""
        words: list[str | Path] = [*before, *self.words(store, *more)]
        environment = {**os.environ, **faults} if faults else None
        done = subprocess.run(
            words,
            input=given,
            capture_output=True,
            timeout=60,
            env=environment,
            check=False,
        )
        return done.returncode, done.stdout, done.stderr.decode()

    def kept(self, store: str) -> list[bytes]:
        """The lines that a store keeps."""
        done = subprocess.run([self.program, "log", self.work / store], stdout=subprocess.PIPE, check=True)
        return done.stdout.splitlines(True)

    def found(self, store: str) -> Verdict:
        """What the model finds a store's file to be."""
        requests = self.work / store / "requests"
        return batches.verdict(requests.read_bytes() if requests.exists() else b"")

    def has_begun(self, store: str) -> bool:
        """Whether a store has a line, its first record at least."""
        return bool(self.found(store).lines)

    def told_of_cut(self, store: str) -> str:
        """What `keep` will say of the end of this store before it makes it whole."""
        return told_of_cut(self.work / store, self.found(store))

    def torn(self, store: str) -> bytes:
        """All that was cut off a store."""
        path = self.work / store / "torn"
        return path.read_bytes() if path.exists() else b""

    def check(self, store: str) -> bytes:
        """What `check` prints of a store."""
        words: list[str | Path] = [self.program, "check", self.work / store]
        return subprocess.run(words, stdout=subprocess.PIPE, check=True).stdout

    def keeps(self, store: str, lines: Sequence[bytes], is_torn: bool = False) -> bool:
        """Whether `log`, `check` and the model agree that a store keeps these lines, each with its newline, and nothing else."""
        found = self.found(store)
        is_so = [line + b"\n" for line in found.lines[1:]] == list(lines) and found.damage is None
        is_printed = self.kept(store) == list(lines) and self.check(store) == checked(found)
        return is_so and is_printed and bool(found.torn) == is_torn


class Client:
    """A client of one store. It counts the answers that came whole."""

    def __init__(self, room: Room, store: str) -> None:
        self.room, self.store = room, store
        self.answers: list[bytes] = []

    def take(self, printed: bytes) -> None:
        """Takes the whole lines that were printed, of which the first says how many lines are kept."""
        whole = printed[: printed.rfind(b"\n") + 1].splitlines(True)
        self.answers += whole[1:]

    def start(self) -> subprocess.Popen[bytes]:
        words = self.room.words(self.store, "--from", str(len(self.answers)))
        return subprocess.Popen(
            words,
            stdin=subprocess.PIPE,
            stdout=subprocess.PIPE,
            stderr=subprocess.DEVNULL,
            start_new_session=True,
        )

    def stop_at_random(self) -> None:
        """Gives it the lines that are not kept, a few at a time, until it is killed."""
        rng = self.room.rng
        until = time.monotonic() + rng.random() * self.room.longest
        with self.start() as keep:
            assert keep.stdin and keep.stdout
            os.set_blocking(keep.stdout.fileno(), False)
            printed = b""
            left: list[bytes] | None = None
            while time.monotonic() < until:
                printed += os.read(keep.stdout.fileno(), 1 << 16) if readable(keep) else b""
                if left is None and b"\n" in printed:
                    left = self.room.lines[json.loads(printed[: printed.index(b"\n")])["kept"] :]
                if left:
                    count = rng.choice([1, 2, 3, 40])
                    keep.stdin.write(b"".join(left[:count]))
                    keep.stdin.flush()
                    left = left[count:]
                time.sleep(rng.random() * 0.01)
            os.killpg(keep.pid, signal.SIGKILL)
            os.set_blocking(keep.stdout.fileno(), True)
            printed += keep.stdout.read()
        self.take(printed)

    def go_on(self) -> bool:
        """Gives it all lines that are not kept, and lets it end. Returns whether it greets with the store's head and cuts off what is torn."""
        had = str(len(self.answers))
        before, torn = self.room.found(self.store), self.room.torn(self.store)
        kept = max(len(before.lines) - 1, 0)
        told = self.room.told_of_cut(self.store)
        given = b"".join(self.room.lines[kept:])
        status, printed, said = self.room.keep(self.store, given, "--from", had)
        self.take(printed)
        record = self.room.found(self.store).lines[:1]
        is_greeted = printed.startswith(receipt(before.lines or record))
        is_cut = self.room.torn(self.store) == torn + before.torn
        return (status, said) == (0, told) and is_greeted and is_cut


def readable(process: subprocess.Popen[bytes]) -> bool:
    """Whether a read of the process's output would return at once with bytes."""
    return bool(select.select([process.stdout], [], [], 0)[0])


def killed(room: Room, kills: int) -> bool:
    """However often it is killed, each answer comes once, and is of a line that is kept."""
    client = Client(room, "killed")
    for number in range(kills):
        client.stop_at_random()
        kept = room.kept(client.store) if room.has_begun(client.store) else []
        if kept != room.lines[: len(kept)] or len(client.answers) > len(kept):
            return False
        if client.answers == room.wanted:
            client = Client(room, f"killed_{number}")
    is_right = client.go_on()
    return is_right and room.keeps(client.store, room.lines) and client.answers == room.wanted
