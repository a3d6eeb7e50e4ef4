"""Stores whose files have any content, and what each command has to say of them."""

from __future__ import annotations

import itertools
import subprocess
from collections.abc import Sequence
from pathlib import Path

import batches
from batches import Verdict
from stores import FIRST_FORMAT, Ended, Room, checked, receipt, told_of_cut

FEWER = "the store keeps fewer lines"
NO_HEAD = "0" * 64


def told_of(content: bytes) -> str | None:
    """Why a store of this content is refused, if it is: its first line, if it has one, is a record that can be read."""
    if content[:2] == b"+{":
        return FIRST_FORMAT
    found = batches.verdict(content)
    if found.damage is not None:
        return f"the store is damaged at byte {found.damage}"
    return None if found.lines else "no store"


def flips(content: bytes, at: int) -> list[bytes]:
    """The content with one bit of this byte flipped, for each bit."""
    return [content[:at] + bytes([content[at] ^ 1 << bit]) + content[at + 1 :] for bit in range(8)]


def marks(content: bytes) -> list[int]:
    """Where the marks of the batches of a whole file are, and last the shut one."""
    sizes = [len(it) for it in batches.records(batches.verdict(content).batches)]
    return list(itertools.accumulate(sizes, initial=0))


class StoreFiles(Room):
    """A room whose stores are files of any content. Its configuration and its lines are those of the stores that are gone on with."""

    def __init__(self, program: str, work: Path, config: str, lines: list[bytes]) -> None:
        super().__init__(program, work, config, lines)
        self.numbers = itertools.count()
        self.keep("begun", b"")
        self.begun = (work / "begun" / "requests").read_bytes()
        (self.record,) = batches.verdict(self.begun).lines
        (self.refused,) = self.answered([b"{}\n"])

    def kept_so(self, name: str, *parts: Sequence[bytes]) -> bytes:
        """The file of a store that `keep` made of these lines, a batch for each part: the one that the model makes."""
        had = 0
        for part in parts:
            # A read call gets all of a file that is shorter, and of a pipe what there is.
            with self.file("given", b"".join(part)).open("rb") as given:
                subprocess.run(
                    self.words(name, "--from", str(had)), stdin=given, capture_output=True, check=True
                )
            had += len(part)
        content = (self.work / name / "requests").read_bytes()
        wanted = batches.file_of([[self.record], *([line[:-1] for line in part] for part in parts)])
        assert content == wanted, f"keep wrote another file than the model: {name}"
        return content

    def store(self, content: bytes) -> str:
        """The name of a new store whose file has this content."""
        name = f"store_{next(self.numbers)}"
        (self.work / name).mkdir()
        self.file(f"{name}/requests", content)
        return name

    def content(self, store: str) -> bytes:
        return (self.work / store / "requests").read_bytes()

    def run(self, *words: str | Path, given: bytes = b"{}\n") -> Ended:
        words = (self.program, *words)
        done = subprocess.run(words, input=given, capture_output=True, timeout=60, check=False)
        return done.returncode, done.stdout, done.stderr.decode()

    def readers(self, store: str) -> dict[str, Ended]:
        """What each command that reads a store answers of this one."""
        path = self.work / store
        return {
            "check": self.run("check", path),
            "check --head": self.run("check", path, "--head", NO_HEAD, "--at", "0"),
            "head": self.run("head", path),
            "head --at": self.run("head", path, "--at", "0"),
            "log": self.run("log", path),
            "log --answers": self.run("log", path, "--answers"),
            "balances": self.run("balances", "--store", path),
            "statements": self.run("statements", "--store", path),
            "explain_lines": self.run("explain_lines", "--store", path),
            "check_config": self.run("check_config", self.config, "--store", path),
            "keep": self.run("keep", path, "--from", "0"),
        }

    def keepers(self, store: str) -> dict[str, Ended]:
        """What `keep` answers of it with a configuration, whatever the client has."""
        path = self.work / store
        return {
            f"keep CONFIG {' '.join(more)}": self.run("keep", self.config, path, *more)
            for more in ((), ("--from", "0"), ("--from", "7"), ("--from", "1000000"))
        }

    def is_told(self, store: str, content: bytes, ended: dict[str, Ended], told: str) -> bool:
        """Whether each command ended with status 1 and these words, and the store has this content and nothing was cut off it."""
        line = f"clear: {self.work}/{store}: {told}\n"
        right = self.content(store) == content and self.torn(store) == b""
        others = {name: ended for name, ended in ended.items() if ended[::2] != (1, line)}
        for name, (status, _, said) in [*others.items()][:1]:
            print(f"{name}: {status} {said.strip()}, not {told}; {content[:20]!r}.. of {len(content)} bytes")
        return right and not others

    def is_refused(self, content: bytes, told: str) -> bool:
        """Each command refuses a store of this content with these words, and leaves it as it is."""
        store = self.store(content)
        return self.is_told(store, content, {**self.readers(store), **self.keepers(store)}, told)

    def answers_to(self, lines: Sequence[bytes]) -> bytes:
        """The answers to these lines, which have no newlines."""
        ended = [line + b"\n" for line in lines]
        is_start = ended == self.lines[: len(ended)]
        return b"".join(self.wanted[: len(ended)] if is_start else self.answered(ended))

    def goes_on(self, content: bytes) -> bool:
        """A store of this content, which keeps its record at least, is checked, goes on with its lines, and is whole then."""
        store, found = self.store(content), batches.verdict(content)
        counted = self.run("check", self.work / store)
        ended = self.run("keep", self.config, self.work / store, "--from", "0")
        wanted = receipt(found.lines) + self.answers_to(found.lines[1:]) + self.refused
        right = counted == (0, checked(found), "") and self.is_repaired(store, found, ended, wanted)
        if not right:
            print(f"does not go on: {content[:20]!r}.. of {len(content)} bytes: {counted}, {ended[2]}")
        return right

    def is_repaired(self, store: str, found: Verdict, ended: Ended, wanted: bytes) -> bool:
        """Whether `keep` ended so over a file that was found to be so, and left its lines and one more, and what it has cut off."""
        is_ended = ended == (0, wanted, told_of_cut(self.work / store, found))
        whole = [*found.batches, *([] if found.lines else [[self.record]]), [b"{}"]]
        return is_ended and self.content(store) == batches.file_of(whole) and self.torn(store) == found.torn

    def begins(self, content: bytes) -> bool:
        """A store of this content, which keeps no line, is none yet for each command that reads it, and begins for a client without answers."""
        store, found = self.store(content), batches.verdict(content)
        right = self.is_told(store, content, self.readers(store), "no store")
        late = {"--from 7": self.run("keep", self.config, self.work / store, "--from", "7")}
        right = right and self.is_told(store, content, late, FEWER)
        ended = self.run("keep", self.config, self.work / store)
        wanted = receipt([self.record]) + self.refused
        right = right and self.is_repaired(store, found, ended, wanted)
        if not right:
            print(f"does not begin over {len(content)} bytes: {content[:20]!r}: {ended}")
        return right

    def agrees(self, content: bytes) -> bool:
        """`check` and `keep` find a file of this content to be what the model finds."""
        told = told_of(content)
        if told is None:
            return self.goes_on(content)
        store = self.store(content)
        path = self.work / store
        asked = {"check": self.run("check", path)}
        if told != "no store":
            asked["keep"] = self.run("keep", self.config, path, "--from", "0")
        return self.is_told(store, content, asked, told) and (
            told != "no store" or self.agrees_to_begin(content)
        )

    def agrees_to_begin(self, content: bytes) -> bool:
        """`keep` begins over a file without lines if its end is no longer than that of a store that begins, and else refuses it."""
        store, found = self.store(content), batches.verdict(content)
        ended = self.run("keep", self.config, self.work / store)
        if len(found.torn) > len(self.begun) - len(batches.OPEN):
            return self.is_told(store, content, {"keep": ended}, "no store")
        return self.is_repaired(store, found, ended, receipt([self.record]) + self.refused)
